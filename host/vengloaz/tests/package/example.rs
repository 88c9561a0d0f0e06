//! The example `core_ledger`, run as a suite would: what it prints and its exit status.

use crate::support::{ledger, ENTRY};
use std::fs;
use std::path::{Path, PathBuf};
use std::process::Command;

/// The example, which `cargo test` builds beside the tests.
fn example() -> PathBuf {
    let tests = std::env::current_exe().expect("the test runs from a file");
    let built = tests.parent().and_then(Path::parent).expect("it lies in deps/").join("examples/core_ledger");
    assert!(built.is_file(), "there is no {}: cargo build --examples, with this test's profile", built.display());
    built
}

/// Runs the example on a sample and a core's ledger: exit status, standard output, standard error.
fn compared(sample: &str, core: &[u8], name: &str) -> (Option<i32>, String, String) {
    let folder = Path::new(env!("CARGO_TARGET_TMPDIR")).join("core_ledger");
    fs::create_dir_all(&folder).expect("the folder is made");
    let file = folder.join(name);
    fs::write(&file, core).expect("the ledger is written");
    let input = samples::folder().join(sample);
    let output = Command::new(example()).args([&input, &file]).output().expect("the example runs");
    let text = |bytes| String::from_utf8(bytes).expect("it is text");
    (output.status.code(), text(output.stdout), text(output.stderr))
}

#[test]
fn a_core_is_held_against_the_reference() {
    // The last two lines of ringrun's text, as one.
    let counts = include_str!("../../../../samples/entry-01.out").lines().skip(4).collect::<Vec<_>>().join(", ") + "\n";
    let reference = ledger(ENTRY);
    let same = compared("entry-01.in", &reference, "same");
    assert_eq!(same, (Some(0), format!("{counts}the same, 4 records\n"), String::new()));

    let mut core = reference.clone();
    core[24] = 16;
    let early = compared("entry-01.in", &core, "early");
    let line = "record 2: reference 17 0 take 7, core 16 0 take 7\n";
    assert_eq!(early, (Some(1), format!("{counts}{line}"), String::new()));

    let short = compared("entry-01.in", &reference[..36], "short");
    let line = "record 3: reference 19 0 got 0, core has none\n";
    assert_eq!(short, (Some(1), format!("{counts}{line}"), String::new()));
}

/// A ring that nothing happens on: N alone, or N and home, and a ledger of no records.
#[test]
fn a_core_is_held_against_a_run_of_no_events() {
    let counts = include_str!("../../../../samples/size-n-and-home.out").lines().collect::<Vec<_>>().join(", ") + "\n";
    for sample in ["size-n-alone.in", "size-n-and-home.in"] {
        let same = compared(sample, &[], "nothing");
        assert_eq!(same, (Some(0), format!("{counts}the same, 0 records\n"), String::new()));
    }
    let line = "record 0: reference has none, core 7 1 fill 7\n";
    let more = compared("size-n-and-home.in", &ledger(ENTRY)[..12], "one");
    assert_eq!(more, (Some(1), format!("{counts}{line}"), String::new()));
}

#[test]
fn what_cannot_be_compared_has_a_status_of_its_own() {
    let (status, out, error) = compared("refused-7-event-block-1.in", &[], "refused");
    assert_eq!((status, &out[..]), (Some(2), ""));
    assert!(error.starts_with("core_ledger: refused 7 at 1: "), "{error}");

    let (status, out, error) = compared("no-such-sample.in", &[], "none");
    assert_eq!((status, &out[..]), (Some(2), ""));
    assert!(error.contains("no-such-sample.in: "), "{error}");

    let output = Command::new(example()).output().expect("the example runs");
    assert_eq!((output.status.code(), &output.stderr[..]), (Some(2), &b"usage: core_ledger INPUT LEDGER\n"[..]));
}
