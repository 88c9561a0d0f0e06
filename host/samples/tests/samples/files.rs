//! The files: what the code makes, no more and no less.

use crate::support::*;
use samples::crossing_lists::Crossing;
use samples::crossings::{self, name, shared};
use samples::{all, folder};
use std::collections::{BTreeMap, BTreeSet};
use std::fs;

const MAKE_THEM: &str = "run `cargo run --release --offline --bin make_samples ../samples` in host/";

#[test]
fn inputs_and_texts_are_those_that_the_code_makes() {
    for sample in all() {
        let file = |ending: &str| fs::read(folder().join(format!("{}.{ending}", sample.name))).unwrap_or_default();
        assert!(fs::exists(folder().join(format!("{}.in", sample.name))).unwrap(), "{}: {MAKE_THEM}", sample.name);
        assert!(file("in") == sample.input, "{}.in is another: {MAKE_THEM}", sample.name);
        assert_eq!(String::from_utf8_lossy(&file("out")), text(&sample), "{}.out: {MAKE_THEM}", sample.name);
    }
}

#[test]
fn there_are_no_other_files() {
    let mut known: BTreeSet<String> = ["README.md", "check", ".gitattributes"].map(String::from).into();
    known.extend(all().iter().flat_map(|sample| [format!("{}.in", sample.name), format!("{}.out", sample.name)]));
    let there = fs::read_dir(folder()).unwrap().map(|file| file.unwrap().file_name().into_string().unwrap());
    let there: BTreeSet<String> = there.collect();
    let wrong: Vec<&String> = there.symmetric_difference(&known).collect();
    assert!(wrong.is_empty(), "too many or missing: {wrong:?}");
}

#[test]
fn names_and_inputs_are_there_once() {
    let mut inputs = BTreeMap::new();
    let mut names = BTreeSet::new();
    for sample in all() {
        let plain = |byte: u8| byte.is_ascii_lowercase() || byte.is_ascii_digit() || byte == b'-';
        assert!(sample.name.bytes().all(plain), "{}", sample.name);
        assert!(names.insert(sample.name.clone()), "{} twice", sample.name);
        let other = inputs.insert(sample.input, sample.name.clone());
        assert_eq!(other, None, "the same input as {}", sample.name);
    }
}

/// Entries 1 and 3 by document 01's own text.
#[test]
fn entries_1_and_3_have_their_text() {
    let read = |name: &str| fs::read_to_string(folder().join(name)).unwrap();
    let first = "7 1 fill 7\n14 1 sent 0\n17 0 take 7\n19 0 got 0\n\
                 puts 1 gets 1 fills 1 takes 1 sent 1 got 1 idle 0\nstopped\n";
    assert_eq!(read("entry-01.out"), first);
    let third = "7 1 fill 7\nputs 1 gets 0 fills 1 takes 0 sent 0 got 0 idle 0\nstopped\n";
    assert_eq!(read("entry-03.out"), third);
}

/// Each line of the lists of crossings is in the page's table, with its sample.
#[test]
fn the_page_names_the_sample_of_every_crossing() {
    let page = fs::read_to_string(folder().join("README.md")).unwrap();
    let table: String = shared().iter().map(|lines| row(lines)).collect();
    assert!(page.contains(&table), "the table must be:\n{table}");
}

/// The row of a sample: its name, the events of its list, how it ends, and the further lines that have
/// the same list.
fn row(lines: &[&Crossing]) -> String {
    let name = name(lines[0]);
    let samples = all();
    let sample = samples.iter().find(|sample| sample.name == name).expect("each has a sample");
    let end = match (ends_stopped(sample), last_image(sample)[1]) {
        (true, _) => "stopped",
        (false, 0) => "moving, empty",
        (false, _) => "moving, full",
    };
    let short = |line: &&Crossing| crossings::name(line).replacen(&format!("crossing-n{}-", line.n), "", 1);
    let others: Vec<String> = lines[1..].iter().map(short).collect();
    format!("| `{name}` | {} | {end} | {} |\n", lines[0].list.split(' ').count(), others.join(", "))
}
