//! The refused samples: each refusal by each cause of document 01's table, at the start and further on,
//! and each order of two.

use crate::support::*;
use samples::{all, Sample};
use std::collections::BTreeSet;

/// The refusals of ringrun, in their order.
const ORDER: [u8; 7] = [1, 2, 6, 7, 8, 5, 9];

/// What is wrong with an input: the refusal's number, the cause in the table's words, and whether it
/// lies beyond block 0.
type Fault = (u8, &'static str, bool);

/// All that is wrong with an input, whatever comes first.
fn faults(input: &[u8]) -> BTreeSet<Fault> {
    let (n, home, tape) = parts(input);
    let of_input = [
        (1, "N below 2", n < 2),
        (1, "N above 64", n > 64),
        (2, "home not below N", home >= n),
        (6, "tape ragged", !tape.len().is_multiple_of(512)),
        (6, "tape too long", tape.len() > 64 * 512),
    ];
    let mut faults: BTreeSet<Fault> =
        of_input.into_iter().filter(|(.., is)| *is).map(|(number, cause, _)| (number, cause, false)).collect();
    let whole = tape.len() / 512;
    for (at, block) in tape.chunks_exact(512).enumerate() {
        let wrong = block_faults(block, n, at, at + 1 == whole);
        faults.extend(wrong.into_iter().map(|(number, cause)| (number, cause, at > 0)));
    }
    faults
}

fn block_faults(block: &[u8], n: u8, at: usize, last: bool) -> Vec<(u8, &'static str)> {
    let half = |at: usize| usize::from(block[at]) + 256 * usize::from(block[at + 1]);
    let mut right = block.to_vec();
    guide::seal(&mut right);
    let (number, count) = (half(0), half(2));
    let slots: Vec<&[u8]> = block[8..].chunks(8).collect();
    let (used, unused) = slots.split_at(count.min(63));
    let wrong = [
        (7, "block check differs", block != right),
        (7, "65,535 for 0 in the check", (half(4) == 65_535 || half(6) == 65_535) && block != right),
        (8, "block number differs", number != at),
        (8, "count 0", count == 0),
        (8, "count above 63", count > 63),
        (8, "count below 63 before the last block", count < 63 && !last),
        (5, "process not below N", used.iter().any(|event| event[0] >= n)),
        (5, "code above 7", used.iter().any(|event| event[1] > 7)),
        (5, "byte 2 not zero", used.iter().any(|event| event[2] != 0)),
        (5, "byte 3 not zero", used.iter().any(|event| event[3] != 0)),
        (5, "message with a code not 0", used.iter().any(|event| event[1] != 0 && event[4..] != [0; 4])),
        (9, "unused slot not zero", unused.iter().any(|slot| **slot != [0; 8])),
    ];
    wrong.into_iter().filter(|(.., is)| *is).map(|(number, cause, _)| (number, cause)).collect()
}

/// Those of a sample's faults that have the number of its refusal.
fn causes(sample: &Sample) -> BTreeSet<Fault> {
    let Some((refused, _)) = refusal(sample) else { return BTreeSet::new() };
    faults(&sample.input).into_iter().filter(|(number, _, _)| *number == refused).collect()
}

/// Every cause that the table names and a ringrun can meet has a sample with no other cause of the same
/// refusal. An event is never other than 8 bytes here.
#[test]
fn every_cause_is_there_at_the_start_and_further_on() {
    let once: [Fault; 5] = [
        (1, "N below 2", false),
        (1, "N above 64", false),
        (2, "home not below N", false),
        (6, "tape ragged", false),
        (6, "tape too long", false),
    ];
    let twice = [
        (5, "process not below N"),
        (5, "code above 7"),
        (5, "byte 2 not zero"),
        (5, "byte 3 not zero"),
        (5, "message with a code not 0"),
        (7, "block check differs"),
        (7, "65,535 for 0 in the check"),
        (8, "block number differs"),
        (8, "count 0"),
        (8, "count above 63"),
        (8, "count below 63 before the last block"),
        (9, "unused slot not zero"),
    ];
    let samples = all().into_iter().filter(|sample| !sample.name.starts_with("order-"));
    let met: Vec<BTreeSet<Fault>> = samples.map(|sample| causes(&sample)).collect();
    let twice = twice.into_iter().flat_map(|(number, cause)| [(number, cause, false), (number, cause, true)]);
    for fault in once.into_iter().chain(twice) {
        let alone = BTreeSet::from([fault]);
        let with_check = BTreeSet::from([fault, (7, "block check differs", fault.2)]);
        assert!(met.iter().any(|causes| *causes == alone || *causes == with_check), "{fault:?} is nowhere");
    }
}

/// A name says the refusal's number, and its place where that may be other than 0.
#[test]
fn names_say_what_is_refused() {
    for sample in all() {
        let words: Vec<&str> = sample.name.split('-').collect();
        let refused = refusal(&sample);
        match words[..] {
            ["refused", number, .., "at" | "block", place] => {
                assert_eq!(refused, Some((number.parse().unwrap(), place.parse().unwrap())), "{}", sample.name)
            }
            ["refused", number, ..] => assert_eq!(refused, Some((number.parse().unwrap(), 0)), "{}", sample.name),
            ["order", "all", ..] => assert_eq!(refused, Some((1, 0))),
            ["order", number, "at", place, ..] => {
                assert_eq!(refused, Some((number.parse().unwrap(), place.parse().unwrap())), "{}", sample.name)
            }
            ["order", number, ..] => assert_eq!(refused.unwrap().0, number.parse().unwrap(), "{}", sample.name),
            ["size", ..] => {}
            _ => assert_eq!(refused, None, "{}", sample.name),
        }
    }
}

/// Both faults are there, and the one that comes first is named.
#[test]
fn every_order_of_two_is_there() {
    let samples = all();
    for (at, first) in ORDER.iter().enumerate() {
        for second in &ORDER[at + 1..] {
            let name = format!("order-{first}-before-{second}");
            let sample = samples.iter().find(|sample| sample.name == name).expect(&name);
            let numbers: BTreeSet<u8> = faults(&sample.input).into_iter().map(|(number, _, _)| number).collect();
            assert!(numbers.is_superset(&BTreeSet::from([*first, *second])), "{name}: {numbers:?}");
            assert_eq!(refusal(sample), Some((*first, 0)), "{name}");
        }
    }
}

/// With one block, the refusal is the first of its faults in the order.
#[test]
fn one_block_is_refused_by_its_first_fault() {
    for sample in all().iter().filter(|sample| sample.input.len() < 2 + 2 * 512) {
        let faults = faults(&sample.input);
        let first = ORDER.into_iter().find(|number| faults.iter().any(|(fault, _, _)| fault == number));
        assert_eq!(refusal(sample).map(|(number, _)| number), first, "{}", sample.name);
    }
}

/// An input is refused just if something is wrong with it.
#[test]
fn an_accepted_sample_has_no_fault() {
    for sample in all() {
        assert_eq!(refusal(&sample).is_none(), faults(&sample.input).is_empty(), "{}", sample.name);
    }
}
