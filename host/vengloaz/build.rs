//! Finds the two archives of the proved library and tells cargo to link them, if the feature `proved` is on.
//!
//! They lie in `target/staticlib` of the repository, or in the directory that the environment variable `RING_HOST_DIR`
//! names. A relative one counts from the workspace, `host/`, wherever cargo is started: a build script can't know where
//! that was. An archive that is older than a source of the crates isn't what these sources say, and is an error.

use std::env;
use std::ffi::OsString;
use std::fs;
use std::io;
use std::path::{Path, PathBuf};
use std::process;
use std::time::SystemTime;

/// The archives, by the names of the crates that they export.
const ARCHIVES: [&str; 2] = ["ring_host", "ring_tools"];

fn main() {
    println!("cargo::rerun-if-changed=build.rs");
    println!("cargo::rerun-if-env-changed=RING_HOST_DIR");
    if env::var_os("CARGO_FEATURE_PROVED").is_none() {
        return;
    }
    let workspace = workspace();
    let directory = directory(&workspace);
    let sources = sources(&workspace.join("../crates"));
    let newest = sources.iter().filter_map(|folder| newest_in(folder).expect("the sources can be read")).max();
    let archives = ARCHIVES.map(|name| directory.join(format!("lib{name}.a")));
    for archive in &archives {
        let Ok(made) = changed(archive) else {
            give_up(&format!("the proved library is not built: there is no {}", archive.display()));
        };
        if let Some((_, source)) = newest.as_ref().filter(|(written, _)| *written > made) {
            give_up(&format!("{} is older than {}", archive.display(), source.display()));
        }
    }
    for looked_at in sources.iter().chain(&archives) {
        println!("cargo::rerun-if-changed={}", looked_at.display());
    }
    println!("cargo::rustc-link-search=native={}", directory.display());
    for name in ARCHIVES {
        println!("cargo::rustc-link-lib=static={name}");
    }
}

/// The folder `host/`.
fn workspace() -> PathBuf {
    let package = env::var_os("CARGO_MANIFEST_DIR").expect("cargo sets CARGO_MANIFEST_DIR");
    Path::new(&package).parent().expect("the package is a member of a workspace").to_path_buf()
}

/// Where the archives are.
fn directory(workspace: &Path) -> PathBuf {
    named_directory().map_or(workspace.join("../target/staticlib"), |named| workspace.join(named))
}

/// What RING_HOST_DIR says, if it says anything.
fn named_directory() -> Option<OsString> {
    env::var_os("RING_HOST_DIR").filter(|named| !named.is_empty())
}

/// The folders that say what an archive does: the crates' code and definitions. None where the package lies without the
/// crates.
fn sources(crates: &Path) -> Vec<PathBuf> {
    let Ok(crates) = fs::read_dir(crates) else { return Vec::new() };
    let folders = crates.flatten().flat_map(|each| ["src", "specs"].map(|name| each.path().join(name)));
    folders.filter(|folder| folder.is_dir()).collect()
}

/// The file of a folder and those in it that was written last, and when.
fn newest_in(folder: &Path) -> io::Result<Option<(SystemTime, PathBuf)>> {
    let mut newest = None;
    for entry in fs::read_dir(folder)? {
        let path = entry?.path();
        let found = if path.is_dir() { newest_in(&path)? } else { Some((changed(&path)?, path)) };
        newest = newest.max(found);
    }
    Ok(newest)
}

/// When a file was last written.
fn changed(file: &Path) -> io::Result<SystemTime> {
    fs::metadata(file)?.modified()
}

/// Ends the build with what is wrong and what to do.
fn give_up(what: &str) -> ! {
    println!("cargo::error={what}");
    println!("cargo::error=run `make archives` in the repository's root, which proves and makes both archives");
    match named_directory() {
        Some(named) => println!(
            "cargo::error=then unset RING_HOST_DIR, which is {}, or copy them there; a relative one counts from host/",
            named.display()
        ),
        None => println!("cargo::error=if they lie elsewhere, let RING_HOST_DIR name that directory"),
    }
    println!("cargo::error=what needs no call builds without them: --no-default-features");
    process::exit(1);
}
