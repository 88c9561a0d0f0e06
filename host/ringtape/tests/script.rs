//! The script `samples/check`: it passes a program that prints every text, and finds one that doesn't. And what `make
//! run` says of an input that it can't run.

use samples::{all, folder};
use std::collections::BTreeSet;
use std::fs;
use std::path::{Path, PathBuf};
use std::process::{Command, Output};

const RINGTAPE: &str = env!("CARGO_BIN_EXE_ringtape");

/// Runs the script of a folder on a program with its arguments.
fn check(folder: &Path, program: &[&str]) -> Output {
    Command::new("sh").arg(folder.join("check")).args(program).output().expect("sh is there")
}

/// A folder of its own for a test, with the script and these samples.
fn copied(folder_name: &str, samples: &[&str]) -> PathBuf {
    let copy = Path::new(env!("CARGO_TARGET_TMPDIR")).join(folder_name);
    fs::create_dir_all(&copy).unwrap();
    let files = samples.iter().flat_map(|name| [format!("{name}.in"), format!("{name}.out")]);
    for file in files.chain(["check".into()]) {
        fs::copy(folder().join(&file), copy.join(&file)).unwrap();
    }
    copy
}

/// What differs from a file, then the same from a pipe.
fn both(what: &str) -> String {
    let piped: Vec<String> = what.split(' ').map(|word| format!("piped-{word}")).collect();
    format!("{what} {}", piped.join(" "))
}

/// That the script failed, named just these samples with what differs, and counted them and the others.
fn finds(output: Output, differing: &[&str], what: &str, matched: usize) {
    assert_eq!((output.status.code(), &output.stderr[..]), (Some(1), &b""[..]));
    let text = String::from_utf8(output.stdout).unwrap();
    let lines: Vec<&str> = text.lines().collect();
    let [named @ .., differ, last] = &lines[..] else { panic!("{text}") };
    let expected: BTreeSet<String> = differing.iter().map(|name| format!("{name} differs: {what}")).collect();
    let named: BTreeSet<String> = named.iter().map(|line| line.to_string()).collect();
    let wrong: Vec<&String> = named.symmetric_difference(&expected).collect();
    assert!(wrong.is_empty(), "{wrong:?}");
    assert_eq!(*differ, format!("{} samples differ", differing.len()));
    assert_eq!(*last, format!("{matched} samples matched"));
}

#[test]
fn a_program_that_prints_every_text_passes() {
    let Output { status, stdout, stderr } = check(&folder(), &[RINGTAPE, "expect"]);
    let matched = format!("{} samples matched\n", all().len());
    assert_eq!((String::from_utf8(stdout).unwrap(), stderr.len(), status.code()), (matched, 0, Some(0)));
}

#[test]
fn one_that_prints_nothing_differs_everywhere() {
    let samples = all();
    let names: Vec<&str> = samples.iter().map(|sample| &sample.name[..]).collect();
    finds(check(&folder(), &["true"]), &names, &both("output"), 0);
}

/// A program that is `ringtape expect` with something after it.
#[test]
fn whatever_differs_is_found_and_named() {
    let names = ["entry-01", "mirror-n2", "refused-2-n-4-home-4", "size-nothing"];
    let few = copied("few", &names);
    let with = |rest: &str| check(&few, &["sh", "-c", &format!("\"$0\" expect {rest}"), RINGTAPE]);
    finds(with("; echo"), &names, &both("output"), 0);
    finds(with("; echo noise >&2"), &names, &both("standard-error"), 0);
    finds(with("; exit 3"), &names, &both("exit-status-3"), 0);
    finds(with("; echo; echo noise >&2; exit 1"), &names, &both("output standard-error exit-status-1"), 0);
    finds(with("| tr -d '\\n'"), &names, &both("output"), 0);
    finds(with("| sed 's/^refused 2 at 0$/refused 2 at 1/'"), &names[2..3], &both("output"), 3);
    finds(with("| sed 's/moving/stopped/'"), &names[1..2], &both("output"), 3);
    finds(with("; if [ -p /dev/stdin ]; then echo; fi"), &names, "piped-output", 0);
    assert!(with("").status.success());
    fs::remove_file(few.join("size-nothing.out")).unwrap();
    finds(with(""), &names[3..], &both("output"), 3);
}

#[test]
fn no_program_or_no_samples_fails() {
    for program in [&[][..], &["./no-such-program"]] {
        let output = check(&folder(), program);
        assert_eq!((output.status.code(), output.stdout.is_empty(), output.stderr.is_empty()), (Some(2), true, false));
    }
    let output = check(&copied("none", &[]), &["true"]);
    assert_eq!((output.status.code(), &output.stdout[..]), (Some(1), &b"0 samples matched\n"[..]));
}

#[test]
fn make_run_takes_a_file_that_is_there() {
    let wrong = [("samples", "make run: samples is a directory\n"), ("none.in", "make run: cannot read none.in\n")];
    for (input, complaint) in wrong {
        let root = folder().join("..");
        let command = Command::new("make").arg("-C").arg(root).args(["run", &format!("IN={input}")]).output();
        let Output { status, stdout: _, stderr } = command.expect("make is there");
        let said = String::from_utf8(stderr).unwrap();
        assert!(!status.success() && said.starts_with(complaint), "{said}");
    }
}
