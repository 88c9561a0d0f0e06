//! Seeded lists of events for the samples, the tests and the benchmark, and the tapes and fresh rings
//! that go with them.
//!
//! Uniform events are drawn without a look at the ring; most are idle. Guided events follow the
//! ring by the plain implementation and are mostly possible, so that fills, takes, sent and got
//! come often in rings of every size. Loads are drawn as document 02 has it, for anyone to repeat; `deaths`
//! tells when they die.

pub mod deaths;
mod guided;
mod random;

pub use guided::{guided, guided_event, possible};
pub use random::Random;

/// The bytes of an event.
pub fn event(process: u64, code: u64, message: u32) -> [u8; 8] {
    let mut bytes = [0; 8];
    bytes[0] = process as u8;
    bytes[1] = code as u8;
    bytes[4..].copy_from_slice(&message.to_le_bytes());
    bytes
}

/// The process and the code of each event of a list of `process.code`, parted by blanks or commas.
pub fn read_list(list: &str) -> Vec<(u64, u64)> {
    let read = |word: &str| {
        let (process, code) = word.split_once('.').expect("an event is process.code");
        let [process, code] = [process, code].map(|digits| digits.parse().expect("it is a number"));
        (process, code)
    };
    list.split([' ', ',']).filter(|word| !word.is_empty()).map(read).collect()
}

/// The image of the fresh ring.
pub fn fresh(n: u64, home: u64) -> Vec<u8> {
    let mut image = vec![0; 16 + 8 * n as usize];
    assert_eq!(plain::ring_fresh::<0>(n, home, &mut image, &mut [0; 80]), 0);
    image
}

/// The tape of a list of events.
pub fn tape(n: u64, list: &[u8]) -> Vec<u8> {
    let mut tape = vec![0; 512 * (list.len() / 8).div_ceil(63)];
    assert_eq!(plain::ring_write::<0>(n, list, &mut tape, &mut [0; 80]), 0);
    tape
}

/// The tape of a load: so many events for N, drawn from a seed.
pub fn load(n: u64, seed: u64, events: usize) -> Vec<u8> {
    let mut tape = vec![0; 512 * events.div_ceil(63)];
    assert_eq!(plain::ring_load::<0>(n, seed, events as u64, &mut tape, &mut [0; 80]), 0);
    tape
}

/// Gives a block the check that it should have: the sums as document 01 writes them.
pub fn seal(block: &mut [u8]) {
    let (mut a, mut b) = (0, 0);
    for word in block[..4].chunks_exact(2).chain(block[8..512].chunks_exact(2)) {
        a = (a + u32::from(word[0]) + 256 * u32::from(word[1])) % 65_535;
        b = (b + a) % 65_535;
    }
    block[4..8].copy_from_slice(&(a + 65_536 * b).to_le_bytes());
}

/// A list of events drawn without a look at the ring: any process, any code, any message where the
/// code is 0.
pub fn uniform(n: u64, events: usize, random: &mut Random) -> Vec<u8> {
    (0..events).flat_map(|_| uniform_event(n, random)).collect()
}

fn uniform_event(n: u64, random: &mut Random) -> [u8; 8] {
    let process = random.below(n);
    let code = random.below(8);
    event(process, code, message_for(code, random))
}

fn message_for(code: u64, random: &mut Random) -> u32 {
    if code == 0 {
        random.message()
    } else {
        0
    }
}
