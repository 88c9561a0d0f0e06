//! Lists of events that follow the ring.

use crate::{event, message_for, uniform_event, Random};
use std::ops::RangeInclusive;

/// A list of events for a sound image, about five in six of them possible when their turn comes.
///
/// Every so often some codes become rare for a while, so that requests, news or the envelope wait
/// where they are and the others go on around them.
pub fn guided(image: &[u8], events: usize, random: &mut Random) -> Vec<u8> {
    let mut ring = image.to_vec();
    let mut list = Vec::with_capacity(8 * events);
    let mut rare = 0;
    for _ in 0..events {
        if random.chance(3) {
            rare = rare_codes(random);
        }
        let next = guided_event(&ring, rare, random);
        assert_eq!(plain::ring_step::<0>(&mut ring, &next, &mut [0; 80]), 0);
        list.extend(next);
    }
    list
}

/// A set of codes to be rare for a while, mostly none, a bit each.
fn rare_codes(random: &mut Random) -> u8 {
    const SETS: [u8; 8] = [0, 0, 0, 1 << 5 | 1 << 6, 1 << 5, 1 << 6, 1 << 4, 1 << 7];
    SETS[random.below(8) as usize]
}

/// One guided event: mostly one that is possible now, and one of a rare code only where there is no
/// other. No start leaves everybody with the same wish, for then only idle events could come.
pub fn guided_event(image: &[u8], rare: u8, random: &mut Random) -> [u8; 8] {
    let n = u64::from(image[0]);
    if random.chance(20) {
        let [process, code, ..] = uniform_event(n, random);
        return event_or_start(image, process.into(), code.into(), random);
    }
    let busy = (0..n).filter(|process| stage(image, *process) != 0).count() as u64;
    let starts = if busy <= n / 2 && random.chance(25) { 0 } else { STARTS };
    let possible = possible_event(image, rare | starts, random);
    let (process, code) = possible.unwrap_or_else(|| (random.below(n), random.below(8)));
    event_or_start(image, process, code, random)
}

/// The codes of events that start something.
const STARTS: u8 = 1 << 0 | 1 << 1;

/// The event given, but for a start that is possible: then the code may be the other.
fn event_or_start(image: &[u8], process: u64, code: u64, random: &mut Random) -> [u8; 8] {
    let starts = code < 2 && stage(image, process) == 0;
    let code = if starts { balanced_start(image, random) } else { code };
    event(process, code, message_for(code, random))
}

/// The stage of a process.
fn stage(image: &[u8], process: u64) -> u8 {
    image[16 + 8 * process as usize]
}

/// A possible event, looked for from the envelope's process or from a random one on; where starts
/// are not rare, always from a random one.
fn possible_event(image: &[u8], rare: u8, random: &mut Random) -> Option<(u64, u64)> {
    let n = u64::from(image[0]);
    let near = rare & STARTS != 0 && random.chance(65);
    let first = if near { envelope_at(image) } else { random.below(n) };
    let circle = || (first..first + n).map(|process| process % n);
    let often = circle().find(|process| possible(image, *process) & !rare != 0);
    let (process, codes) = match often {
        Some(process) => (process, possible(image, process) & !rare),
        None => circle().map(|process| (process, possible(image, process))).find(|(_, codes)| *codes != 0)?,
    };
    let nth = random.below(u64::from(codes.count_ones()));
    let code = (0..8).filter(|code| codes >> code & 1 != 0).nth(nth as usize)?;
    Some((process, code))
}

/// The process that has the envelope or at which it arrives.
fn envelope_at(image: &[u8]) -> u64 {
    let at = image[16..].chunks_exact(8).position(|record| record[1] & 3 != 0);
    at.unwrap_or(0) as u64
}

/// The codes of the events that are possible at a process, a bit each.
pub fn possible(image: &[u8], process: u64) -> u8 {
    let at = 16 + 8 * process as usize;
    let [stage, flags, requests] = [image[at], image[at + 1], image[at + 2]];
    let by_stage = match stage {
        0 => 1 << 0 | 1 << 1,
        3 | 8 => 1 << 2,
        1 | 4 | 6 | 9 => 1 << 3,
        _ => 0,
    };
    by_stage | flags >> 1 << 4 & 1 << 4 | requests >> 6 << 5 | flags >> 2 << 7
}

/// Code 0 or 1 for a process in stage 0: mostly the wish that fewer have, and never the one that all
/// others have.
fn balanced_start(image: &[u8], random: &mut Random) -> u64 {
    let n = u64::from(image[0]);
    let having = |stages: RangeInclusive<u8>| {
        let wishing = (0..n).filter(|process| stages.contains(&stage(image, *process)));
        wishing.count() as u64
    };
    let (senders, receivers) = (having(1..=5), having(6..=10));
    let one_sided = senders == n - 1 || receivers == n - 1;
    if one_sided || senders != receivers && random.chance(60) {
        return u64::from(senders > receivers);
    }
    random.below(2)
}
