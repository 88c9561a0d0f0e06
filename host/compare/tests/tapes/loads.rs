//! The loads to make: every N, seeds at both edges and between, counts around whole blocks, every refusal by every
//! cause, and the longest.

use crate::case::{Call, Case};
use crate::work::{filled, round_trip};
use crate::{Watch, Work};
use compare::tape::{event, Event, Tape, BLOCK, MOST_BLOCKS, MOST_EVENTS, SLOTS};
use guide::Random;

/// The greatest seed.
pub const MOST_SEED: u64 = 2_147_483_646;

/// Seeds that are 0 or too great, one of which would do if it were cut to 32 bits.
const WRONG_SEEDS: [u64; 8] = [0, MOST_SEED + 1, 1 << 31, (1 << 32) - 1, 1 << 32, (1 << 32) + 1, 1 << 63, u64::MAX];

/// Counts of too many events, three of which would do if they were cut to 32 bits.
const WRONG_COUNTS: [u64; 6] =
    [MOST_EVENTS as u64 + 1, MOST_EVENTS as u64 + 63, 1 << 32, (1 << 32) + 1, 1 << 63, u64::MAX];

/// The loads for N.
pub fn all(watch: &mut Watch, n: usize, random: &mut Random) -> Work<()> {
    let between = [0; 4].map(|_| 1 + random.below(MOST_SEED));
    for seed in [1, 2, MOST_SEED - 1, MOST_SEED].into_iter().chain(between) {
        for count in [0, 1, 2, 62, 63, 64, 125, 126, 127, random.within(128, 4_000)] {
            load(watch, n, seed, count, random)?;
        }
    }
    wrong_numbers(watch, n as u64, random)
}

/// A load: its tape is that of the events drawn, is read back as them, and is what the writer makes of them.
fn load(watch: &mut Watch, n: usize, seed: u64, count: usize, random: &mut Random) -> Work<()> {
    let events = drawn(n as u64, seed, count);
    let bytes = BLOCK * count.div_ceil(SLOTS);
    let output = bytes + random.pick(&[0, 1, 511, 512]);
    let case = Case { n: n as u64, call: Call::Load(seed, count as u64), output, result: 80 };
    let made = filled(watch, &case, bytes)?;
    assert!(Tape::of(&events).bytes() == made[..bytes], "a load is the tape of the events drawn:\n{case}");
    round_trip(watch, n, events.as_flattened(), random)
}

/// The events of a load, as document 02 has it.
fn drawn(n: u64, seed: u64, count: usize) -> Vec<Event> {
    let mut last = seed;
    let mut draw = || {
        last = last * 16_807 % 2_147_483_647;
        last
    };
    let mut drawn = || {
        let (first, second, third) = (draw(), draw(), draw());
        match second % 8 {
            0 => event((first % n) as usize, 0, third as u32),
            code => event((first % n) as usize, code as u8, 0),
        }
    };
    (0..count).map(|_| drawn()).collect()
}

/// Seeds that are refused 11 and counts that are refused 6, with all that comes later right, and wrong too.
fn wrong_numbers(watch: &mut Watch, n: u64, random: &mut Random) -> Work<()> {
    let case = |seed: u64, count: u64, output: usize, result: usize| {
        let call = Call::Load(seed, count);
        Case { n, call, output, result }
    };
    for seed in WRONG_SEEDS {
        let cause = if seed == 0 { "seed 0" } else { "seed above 2,147,483,646" };
        let count = random.within(0, 126) as u64;
        watch.refused(&case(seed, count, 2 * BLOCK, 80), 11, 0, cause)?;
        for count in WRONG_COUNTS {
            watch.refused(&case(seed, count, 0, 79), 11, 0, &format!("{cause}, and all else wrong"))?;
        }
    }
    for count in WRONG_COUNTS {
        let cause = "too many events";
        for seed in [1, MOST_SEED] {
            watch.refused(&case(seed, count, 2 * BLOCK, 80), 6, 0, cause)?;
            watch.refused(&case(seed, count, 0, 80), 6, 0, &format!("{cause}, and no output"))?;
            watch.refused(&case(seed, count, 0, 79), 6, 0, &format!("{cause}, and no output"))?;
        }
    }
    Ok(())
}

/// The longest load, from the greatest seed, and one event more.
pub fn longest(watch: &mut Watch, random: &mut Random) -> Work<()> {
    load(watch, 64, MOST_SEED, MOST_EVENTS, random)?;
    let call = Call::Load(MOST_SEED, MOST_EVENTS as u64 + 1);
    let case = Case { n: 64, call, output: BLOCK * (MOST_BLOCKS + 1), result: 80 };
    watch.refused(&case, 6, 0, "too many events")
}
