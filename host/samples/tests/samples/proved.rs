//! The same texts by the package's own calls, which are proved: run, the ledger's records, stopped.

use crate::support::*;
use samples::{all, Sample};
use std::collections::BTreeSet;
use vengloaz::{fresh, load, records, run, stopped, Refusal};

/// What ringrun must print, by the proved calls and the package's own lines. Those know nothing of ringrun's most
/// blocks; nothing is given where these are at fault.
fn proved(sample: &Sample) -> Option<String> {
    let (n, home, tape) = parts(&sample.input);
    if tape.len() > 64 * 512 {
        return None;
    }
    let refused = |refusal: Refusal| format!("refused {} at {}\n", refusal.number(), refusal.place());
    Some(ran(n.into(), home.into(), tape).unwrap_or_else(refused))
}

fn ran(n: u64, home: u64, tape: &[u8]) -> Result<String, Refusal> {
    let mut image = fresh(n, home)?;
    let mut ledger = vec![0; 12 * 63 * 64];
    let counts = run(&mut image, tape, &mut ledger)?.counts;
    let lines: String = records(&ledger[..counts.ledger_bytes()]).map(|record| format!("{record}\n")).collect();
    let end = if stopped(&image)? { "stopped" } else { "moving" };
    Ok(format!("{lines}{counts}\n{end}\n"))
}

#[test]
fn the_proved_calls_give_the_same_texts() {
    let mut compared = 0;
    for sample in all() {
        match proved(&sample) {
            Some(proved) => {
                assert_eq!(proved, text(&sample), "{}", sample.name);
                compared += 1;
            }
            None => assert!(matches!(refusal(&sample), Some((1 | 2 | 6, 0))), "{}", sample.name),
        }
    }
    assert!(compared > 150, "{compared} compared");
}

/// The numbers of a load's name: N, home, seed and events.
fn named(sample: &Sample) -> Option<[u64; 4]> {
    let words: Vec<&str> = sample.name.split('-').collect();
    let ["load", n, "home", home, "seed", seed, "events", events] = words[..] else { return None };
    Some([n.strip_prefix('n')?, home, seed, events].map(|digits| digits.parse().expect("it is a number")))
}

/// A load is the one of its name, and there are rings, homes, seeds and counts at both ends and between.
#[test]
fn a_load_is_the_proved_one_of_its_name() {
    let samples = all();
    let loads = samples.iter().filter(|sample| sample.name.starts_with("load-"));
    let mut seen: [BTreeSet<u64>; 5] = Default::default();
    for sample in loads {
        let [n, home, seed, events] = named(sample).expect("a load's name has its numbers");
        let tape = load(n, seed, events).expect("it is a load");
        assert!(sample.input == [&[n as u8, home as u8], &tape[..]].concat(), "{}", sample.name);
        [n, seed, events].iter().zip(&mut seen).for_each(|(number, seen)| _ = seen.insert(*number));
        seen[if home == n - 1 { 3 } else { 4 }].insert(n);
    }
    let all_of = |at: usize, numbers: &[u64]| numbers.iter().all(|number| seen[at].contains(number));
    assert!(all_of(0, &[2, 4, 37, 64]) && all_of(1, &[1, 2_147_483_646]) && all_of(2, &[0, 1, 62, 63, 64, 4_032]));
    assert!(all_of(3, &[2, 4, 37, 64]) && all_of(4, &[2, 4, 37, 64]), "the last process as home, and another");
    assert!(seen[1].len() > 4, "seeds between");
}
