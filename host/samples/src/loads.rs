//! Loads: lists drawn from a seed as document 02 has it, which anyone can make again.

use crate::Sample;

/// N, home, seed, and how many events.
const LOADS: [(u64, u8, u64, usize); 17] = [
    (2, 0, 1, 1),
    (2, 1, 2_147_483_646, 63),
    (2, 0, 16_807, 64),
    (2, 0, 13, 4_032),
    (4, 0, 1, 0),
    (4, 0, 1, 62),
    (4, 3, 1, 63),
    (4, 2, 2_147_483_646, 64),
    (4, 0, 1, 4_032),
    (37, 0, 1, 63),
    (37, 36, 2_147_483_645, 62),
    (37, 36, 123_456_789, 4_032),
    (64, 63, 2_147_483_646, 1),
    (64, 0, 2, 62),
    (64, 63, 1, 64),
    (64, 0, 1_043_618_065, 4_032),
    (64, 63, 2_147_483_646, 4_032),
];

pub fn samples() -> Vec<Sample> {
    let sample = |(n, home, seed, events)| {
        let input = [&[n as u8, home], &guide::load(n, seed, events)[..]].concat();
        Sample::new(format!("load-n{n}-home-{home}-seed-{seed}-events-{events}"), input)
    };
    LOADS.map(sample).into()
}
