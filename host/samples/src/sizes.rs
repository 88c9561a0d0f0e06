//! The least and the greatest of everything: inputs, rings, tapes, numbers.

use crate::damage::Damage;
use crate::play::Play;
use crate::Sample;

pub fn samples() -> Vec<Sample> {
    let named = [short(), rings(), tapes()].into_iter().flatten();
    let mut samples: Vec<Sample> = named.map(|(name, input)| Sample::new(format!("size-{name}"), input)).collect();
    samples.push(Sample::new("size-messages", messages()));
    samples
}

/// Less than one block.
fn short() -> Vec<(&'static str, Vec<u8>)> {
    vec![
        ("nothing", vec![]),
        ("n-alone", vec![2]),
        ("n-alone-of-64", vec![64]),
        ("n-alone-of-1", vec![1]),
        ("n-and-home", vec![2, 1]),
        ("n-and-home-of-64", vec![64, 63]),
    ]
}

/// The smallest and the greatest ring, and one between, with lists of mostly possible events.
fn rings() -> Vec<(&'static str, Vec<u8>)> {
    vec![
        ("ring-of-2-home-0", Play::fresh(2, 0).guided(300, 21).input()),
        ("ring-of-2-home-1", Play::fresh(2, 1).guided(300, 22).input()),
        ("ring-of-37-home-36", Play::fresh(37, 36).guided(600, 37).input()),
        ("ring-of-64-home-0", Play::fresh(64, 0).guided(600, 64).input()),
        ("ring-of-64-home-63", Play::fresh(64, 63).guided(600, 65).input()),
    ]
}

/// The longest tape, and longer ones.
fn tapes() -> Vec<(&'static str, Vec<u8>)> {
    vec![
        ("63-blocks-and-1-event", events(63 * 63 + 1).0),
        ("64-blocks", blocks(64).0),
        ("65-blocks", blocks(65).0),
        ("64-blocks-and-a-byte", blocks(64).length(64 * 512 + 1).0),
        ("129-blocks-of-zeros", blocks(1).length(0).length(129 * 512).0),
    ]
}

/// An input of 64 processes, home 0, with so many blocks, the last one full.
pub fn blocks(blocks: usize) -> Damage {
    events(63 * blocks)
}

fn events(events: usize) -> Damage {
    Damage(Play::fresh(64, 0).guided(events, 4).input())
}

/// Messages of every number of digits, the least and the greatest of each, from process 1 to 0.
fn messages() -> Vec<u8> {
    let mut play = Play::fresh(2, 0);
    for digits in 0..10 {
        let least = if digits == 0 { 0 } else { 10u32.pow(digits) };
        let greatest = 10u32.checked_pow(digits + 1).map_or(u32::MAX, |next| next - 1);
        for message in [least, greatest] {
            play = play.put(1, message).then("0.1").rounds();
        }
    }
    play.input()
}
