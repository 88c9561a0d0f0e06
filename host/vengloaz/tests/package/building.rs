//! The build: archives that are missing or older than the crates' sources are an error that says what to run, and what
//! needs none builds without them.

use std::fs::{self, File};
use std::path::{Path, PathBuf};
use std::process::Command;
use std::time::SystemTime;

/// Runs cargo in a target folder of its own, with archives looked for in a directory: whether it succeeds, and what it
/// says.
fn cargo(arguments: &[&str], archives: &Path) -> (bool, String) {
    let target = Path::new(env!("CARGO_TARGET_TMPDIR")).join("building");
    let workspace = Path::new(env!("CARGO_MANIFEST_DIR")).join("..");
    let mut command = Command::new(env!("CARGO"));
    command.args(arguments).args(["--offline", "--quiet", "--target-dir"]).arg(target);
    let output = command.current_dir(workspace).env("RING_HOST_DIR", archives).output().expect("cargo runs");
    (output.status.success(), String::from_utf8(output.stderr).expect("it is text"))
}

/// A folder with copies of both archives, changed at a time if one is given.
fn copies(name: &str, changed: Option<SystemTime>) -> PathBuf {
    let folder = Path::new(env!("CARGO_TARGET_TMPDIR")).join(name);
    fs::create_dir_all(&folder).expect("the folder is made");
    for archive in ["libring_host.a", "libring_tools.a"] {
        let made = Path::new(env!("CARGO_MANIFEST_DIR")).join("../../target/staticlib").join(archive);
        let copy = folder.join(archive);
        fs::copy(made, &copy).expect("the archive was made");
        if let Some(time) = changed {
            File::options().write(true).open(copy).and_then(|file| file.set_modified(time)).expect("it has a time");
        }
    }
    folder
}

const CALLS: [&str; 3] = ["check", "--package", "vengloaz"];

#[test]
fn archives_must_be_there_and_new() {
    let (built, said) = cargo(&CALLS, &copies("new-archives", None));
    assert!(built, "{said}");

    let (built, said) = cargo(&CALLS, Path::new("no/such/folder"));
    assert!(!built);
    assert!(said.contains("the proved library is not built: there is no "), "{said}");
    assert!(said.contains("/host/no/such/folder/libring_host.a"), "a relative path counts from host/: {said}");
    assert!(said.contains("run `make archives` in the repository's root"), "{said}");

    let (built, said) = cargo(&CALLS, &copies("old-archives", Some(SystemTime::UNIX_EPOCH)));
    assert!(!built);
    assert!(said.contains("libring_host.a is older than "), "{said}");
    assert!(said.contains("run `make archives` in the repository's root"), "{said}");
}

#[test]
fn what_needs_no_call_builds_without_archives() {
    let commands = [
        &["doc", "--package", "vengloaz", "--no-default-features", "--no-deps"][..],
        &["build", "--package", "vengloaz", "--no-default-features"],
        &["build", "--package", "ringtape"],
        &["build", "--package", "guide"],
    ];
    for command in commands {
        let (built, said) = cargo(command, Path::new("no/such/folder"));
        assert!(built && said.is_empty(), "{command:?}: {said}");
    }
}
