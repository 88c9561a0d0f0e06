//! When loads die.
//!
//! A load draws puts and gets without a look at the ring. Sooner or later every process waits on the same side, all to
//! put or all to get, and nothing is ever filled, taken or ended again. Then the ring is dead, whatever comes is idle;
//! or a marker that was left on makes the envelope go round.

use crate::{fresh, load};
use std::fmt;

/// The rings whose loads are looked at, from home 0, and the seeds.
pub const SIZES: [u64; 5] = [2, 4, 8, 16, 64];
const SEEDS: std::ops::RangeInclusive<u64> = 1..=25;

/// A load is made and performed in parts: so many events each, and as many parts as the longest load has.
const PART: usize = 64 * 63;
const PARTS: usize = 1_024;

/// What becomes of a load.
#[derive(Clone, Copy, Debug, PartialEq, Eq)]
pub enum End {
    /// The ring dies; the number, counted from 0, of the last event that isn't idle.
    Dies(usize),
    /// The envelope goes round, for ever, among processes that all wait for its other status.
    GoesRound,
    /// Something may still be filled or taken where the longest load ends.
    Lives,
}

impl fmt::Display for End {
    fn fmt(&self, out: &mut fmt::Formatter<'_>) -> fmt::Result {
        match self {
            End::Dies(last) => write!(out, "dies: the last event that isn't idle has number {last}"),
            End::GoesRound => write!(out, "goes round: nothing is filled or taken any more"),
            End::Lives => write!(out, "lives to the end of the longest load"),
        }
    }
}

/// The end of the longest load for N from this seed, performed on the fresh ring with home 0.
pub fn end(n: u64, seed: u64) -> End {
    let mut image = fresh(n, 0);
    let mut ledger = vec![0; 12 * PART];
    let further = (0..3 * PART).fold(1, |last, _| after(16_807, last));
    let mut seed = seed;
    for part in 0..PARTS {
        let tape = load(n, seed, PART);
        let before = image.clone();
        assert_eq!(plain::ring_run::<0>(&mut image, &tape, &mut ledger, &mut [0; 80]), 0);
        if is_dead(&image) {
            return End::Dies(PART * part + last_event(before, &tape));
        }
        if goes_round(&image) {
            return End::GoesRound;
        }
        // A load goes on where a shorter one has ended: the last number drawn is the seed of the rest.
        seed = after(further, seed);
    }
    End::Lives
}

/// A number drawn later than another: the next one, by the generator's factor, or by its power so many further on.
fn after(factor: u64, last: u64) -> u64 {
    factor * last % 2_147_483_647
}

/// Whether nothing can ever happen again: the ring is stopped, and no process is in stage 0, to start something.
fn is_dead(image: &[u8]) -> bool {
    stopped(image) && stages(image).all(|stage| stage != 0)
}

/// Whether the ring moves, all wait for the empty envelope, and it is full, or all for the full one, and it is empty,
/// and the marker of what it is stands on. Nobody is there to take or to fill, or to clear the marker, so all of that
/// stays.
fn goes_round(image: &[u8]) -> bool {
    let status = image[1];
    let (waits, marker) = if status == 1 { (2, 1 << 0) } else { (7, 1 << 1) };
    !stopped(image) && stages(image).all(|stage| stage == waits) && image[2] & marker != 0
}

fn stages(image: &[u8]) -> impl Iterator<Item = u8> + '_ {
    image[16..].chunks_exact(8).map(|record| record[0])
}

fn stopped(image: &[u8]) -> bool {
    let mut result = [0; 80];
    assert_eq!(plain::ring_stopped::<0>(image, &mut result), 0);
    result[0] == 1
}

/// The place on a tape of its last event that isn't idle from this image on; there is one.
fn last_event(mut image: Vec<u8>, tape: &[u8]) -> usize {
    let slots = tape.chunks_exact(512).flat_map(|block| block[8..].chunks_exact(8));
    let moves = slots.map(|event| {
        let mut result = [0; 80];
        assert_eq!(plain::ring_step::<0>(&mut image, event, &mut result), 0);
        result[0] != 0
    });
    let moves: Vec<bool> = moves.collect();
    moves.iter().rposition(|moved| *moved).expect("a ring dies by an event")
}

/// The table's head.
pub const HEAD: &str = "\
| N | loads that die | earliest | median | latest | that go round |
|---|---|---|---|---|---|
";

/// The table's row for N: how many of the loads die, the earliest, the median and the latest of their last events that
/// aren't idle, and in how many the envelope goes round.
pub fn row(n: u64) -> String {
    let ends: Vec<End> = SEEDS.map(|seed| end(n, seed)).collect();
    let round = ends.iter().filter(|end| **end == End::GoesRound).count();
    let mut last: Vec<usize> =
        ends.iter().filter_map(|end| if let End::Dies(last) = end { Some(*last) } else { None }).collect();
    last.sort_unstable();
    let [earliest, median, latest] = match &last[..] {
        [] => ["none"; 3].map(String::from),
        [first, ..] => [*first, last[(last.len() - 1) / 2], last[last.len() - 1]].map(with_commas),
    };
    format!("| {n} | {} | {earliest} | {median} | {latest} | {round} |\n", last.len())
}

/// The rings of which one long load is compared with short ones, and how many of these have as many events.
pub const COMPARED: [u64; 3] = [4, 8, 64];
const SHORT_LOADS: u64 = PARTS as u64;

/// The second table's head.
pub const COMPARED_HEAD: &str = "\
| N | one load: taken | not idle | short loads: taken | not idle |
|---|---|---|---|---|
";

/// The second table's row for N: the messages taken and the events that aren't idle, in the longest load from seed 1
/// and in 1,024 loads of 4,032 events from the seeds 1 to 1,024, each performed on the fresh ring with home 0.
pub fn compared_row(n: u64) -> String {
    let long = tested(n, 1, PARTS * PART);
    let short = (1..=SHORT_LOADS).map(|seed| tested(n, seed, PART));
    let short = short.fold([0, 0], |[taken, moving], [more, also]| [taken + more, moving + also]);
    let [taken, moving, taken_short, moving_short] = [long[0], long[1], short[0], short[1]].map(with_commas);
    format!("| {n} | {taken} | {moving} | {taken_short} | {moving_short} |\n")
}

/// The messages taken in a load, and its events that aren't idle.
fn tested(n: u64, seed: u64, events: usize) -> [usize; 2] {
    let mut result = [0; 80];
    let mut ledger = vec![0; 12 * events];
    let run = plain::ring_run::<0>(&mut fresh(n, 0), &load(n, seed, events), &mut ledger, &mut result);
    assert_eq!(run, 0);
    let word = |k: usize| u64::from_le_bytes(result.as_chunks().0[k]) as usize;
    [word(3), events - word(6)]
}

fn with_commas(number: usize) -> String {
    let (millions, thousands, rest) = (number / 1_000_000, number / 1_000 % 1_000, number % 1_000);
    match number {
        0..1_000 => rest.to_string(),
        1_000..1_000_000 => format!("{thousands},{rest:03}"),
        _ => format!("{millions},{thousands:03},{rest:03}"),
    }
}
