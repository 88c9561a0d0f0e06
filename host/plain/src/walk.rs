//! The one walk over the records of an image: whether it is sound, its flags, and the sets of marked processes ("The
//! image", and A.3 of document 02).

use crate::answer::Refusal;
use crate::image::*;

/// What a walk finds.
pub struct Findings {
    /// Whether header and records hold together.
    sound: bool,
    /// The have and arriving flags that are set, both together.
    pub flags: u64,
    /// The processes marked for full and for empty: digit i is process i.
    pub full: u64,
    pub empty: u64,
}

impl Findings {
    /// Nothing for a sound image, else what step, run and stopped refuse it with.
    pub fn verdict(&self) -> Result<(), Refusal> {
        if self.sound {
            Ok(())
        } else {
            Err(NOT_SOUND)
        }
    }
}

/// Walks from the last record to the first, so that each set, shifted on at every record, ends with process 0 as its
/// lowest digit.
pub fn walk<const FAULT: u8>(envelope: Envelope, records: &[[u8; 8]]) -> Findings {
    let tested = &Tested::<FAULT>::BY_STATUS[envelope.status() as usize];
    let mut wrong = 0;
    let (mut have, mut arriving) = (0, 0);
    let (mut full, mut empty) = (0u64, 0u64);
    for record in records.iter().rev() {
        let record = u64::from_le_bytes(*record);
        wrong |= (record ^ HAVE) & tested[(record & 15) as usize];
        have += record & HAVE;
        arriving += record & ARRIVING;
        full = full << 1 | record >> 20 & 1;
        empty = empty << 1 | record >> 21 & 1;
    }
    let flags = (have >> 8) + (arriving >> 9);
    let marked = u64::from(full.count_ones()) << 24 | u64::from(empty.count_ones()) << 32;
    let sound = wrong == 0 && flags == 1 && header_sound(envelope, marked);
    let flags = if FAULT == 22 && !sound { have >> 8 } else { flags };
    Findings { sound, flags, full, empty }
}

/// Whether the header's ranges and zeros hold and its counts are those of the marks.
fn header_sound(envelope: Envelope, marked: u64) -> bool {
    let counts = envelope.word & !(0xFF | FULL | FULL_WANTED | EMPTY_WANTED);
    let most = if envelope.status() == 1 { 0xFFFF_FFFF } else { 0 };
    counts == marked && envelope.message <= most
}

/// The bits of a record that must be 0, by status and the low four bits of the stage; only have,
/// where it is among them, must be 1.
struct Tested<const FAULT: u8>;

impl<const FAULT: u8> Tested<FAULT> {
    const BY_STATUS: &'static [[u64; 16]; 2] = &[all_tested::<FAULT>(0), all_tested::<FAULT>(1)];
}

const fn all_tested<const FAULT: u8>(status: u64) -> [u64; 16] {
    let mut all = [0; 16];
    let mut stage = 0;
    while stage < 16 {
        all[stage] = tested::<FAULT>(stage, status);
        stage += 1;
    }
    all
}

/// All bits, one of which is wrong, for a stage above 10 or one that the other status goes with.
const fn tested<const FAULT: u8>(stage: usize, status: u64) -> u64 {
    let mut tested = 0xFF00_F8F0;
    match stage {
        3 | 9 | 10 if status == 0 => tested |= HAVE,
        4 | 5 | 8 if status == 1 => tested |= HAVE,
        0 | 1 | 2 | 6 | 7 => {}
        _ => return !0,
    }
    if !matches!(stage, 1..=3) {
        tested |= NOTE;
    }
    if !matches!(stage, 7..=10) {
        tested |= MARKED_FULL;
    }
    if !(matches!(stage, 2..=5) || FAULT == 9 && stage == 6) {
        tested |= MARKED_EMPTY;
    }
    tested
}
