//! One event: its test and its performance ("The eight events").
//!
//! An event is one little-endian 64-bit word. Which record bits make it possible, and what it does
//! to the record of its process, is looked up by its code, without a branch; main's work and put go
//! on from there.

use crate::answer::Refusal;
use crate::image::*;
use crate::put::Put;
use crate::traffic::Traffic;

/// Codes of the two events that reach beyond the record of their process.
const MAIN_WORKS: u64 = 2;
const PUT: u64 = 7;

/// Kinds of outcome.
pub const IDLE: u64 = 0;
pub const MOVED: u64 = 1;
pub const FILL: u64 = 2;
pub const TAKE: u64 = 3;
pub const SENT: u64 = 4;
pub const GOT: u64 = 5;

/// The outcome of an event, with the message of a fill or a take (else 0), and its traffic.
#[derive(Clone, Copy)]
pub struct Outcome {
    pub kind: u64,
    pub message: u64,
    pub traffic: Traffic,
}

impl Outcome {
    /// Of an event that sends nothing: all but put.
    #[inline(always)]
    fn quiet(kind: u64, message: u64) -> Outcome {
        Outcome { kind, message, traffic: Traffic::NONE }
    }
}

/// The process of an event.
pub fn process(event: u64) -> u64 {
    event & 0xFF
}

/// The code of a tested event.
pub fn code(event: u64) -> u64 {
    event >> 8 & 7
}

/// Whether refusal 5 is due to none of some events: each process below N, no code above 7, zero
/// bytes zero, and no message beside a code other than 0. The bits in question are gathered over
/// all of them and tested once.
#[inline(always)]
pub fn all_right(size: usize, events: &[[u8; 8]]) -> bool {
    let to_256 = 256 - size as u64;
    let (mut any, mut processes, mut messages) = (0, 0, 0);
    for event in events {
        let event = u64::from_le_bytes(*event);
        any |= event;
        processes |= process(event) + to_256;
        messages |= event & (event & 0x700).wrapping_neg();
    }
    any & 0xFFFF_F800 == 0 && processes & 256 == 0 && messages >> 32 == 0
}

/// A single event, or refusal 5 at 0.
#[inline]
pub fn single(size: usize, bytes: &[u8]) -> Result<u64, Refusal> {
    const REFUSED: Refusal = Refusal { number: 5, place: 0 };
    let bytes: [u8; 8] = bytes.try_into().map_err(|_| REFUSED)?;
    if !all_right(size, &[bytes]) {
        return Err(REFUSED);
    }
    Ok(u64::from_le_bytes(bytes))
}

/// When events of one code are possible, and how they change the record of their process.
#[derive(Clone, Copy)]
struct Change {
    /// The stages that make it possible, a bit each.
    stages: u64,
    /// The record bits one of which makes it possible.
    tested: u64,
    /// The record bits that it clears, then those that it sets, then what it adds to the stage.
    cleared: u64,
    set: u64,
    added: u64,
}

const CHANGES: [Change; 8] = [
    staged(1 << 0, 0, 1),
    staged(1 << 0, 0, 6),
    staged(1 << 3 | 1 << 8, 0, 1),
    staged(1 << 1 | 1 << 4 | 1 << 6 | 1 << 9, NEWS, 1),
    flagged(ARRIVING, HAVE | NEWS),
    flagged(LINK_FULL, RIGHT_ASKED_FULL | NEWS),
    flagged(LINK_EMPTY, RIGHT_ASKED_EMPTY | NEWS),
    flagged(NEWS, 0),
];

const fn staged(stages: u64, set: u64, added: u64) -> Change {
    Change { stages, tested: 0, cleared: 0, set, added }
}

const fn flagged(tested: u64, set: u64) -> Change {
    Change { stages: 0, tested, cleared: tested, set, added: 0 }
}

/// Performs one tested event on a sound ring and gives its outcome.
#[inline(always)]
pub fn perform<const FAULT: u8>(envelope: &mut Envelope, records: &mut [[u8; 8]], event: u64) -> Outcome {
    let process = process(event) as usize;
    let code = code(event);
    let change = &CHANGES[code as usize];
    let record = u64::from_le_bytes(records[process]);
    let possible = (change.stages >> (record & 15) & 1) | u64::from(record & change.tested != 0);
    if possible == 0 {
        return Outcome::quiet(IDLE, 0);
    }
    let record = (record & !change.cleared | change.set | event & NOTE) + change.added;
    if code == PUT {
        return Put::<FAULT> { envelope, records, process, record, traffic: Traffic::NONE }.perform();
    }
    if code == MAIN_WORKS {
        return main_works(envelope, &mut records[process], record);
    }
    records[process] = record.to_le_bytes();
    Outcome::quiet(MOVED, 0)
}

/// Main's work, its stage already taken on: in stage 4 it fills the envelope with the note, in
/// stage 9 it takes the message out.
#[inline(always)]
fn main_works(envelope: &mut Envelope, own: &mut [u8; 8], record: u64) -> Outcome {
    *own = (record & !NOTE).to_le_bytes();
    if record & STAGE == 4 {
        envelope.word |= FULL;
        envelope.message = record >> 32;
        return Outcome::quiet(FILL, envelope.message);
    }
    let message = envelope.message;
    envelope.word &= !FULL;
    envelope.message = 0;
    Outcome::quiet(TAKE, message)
}
