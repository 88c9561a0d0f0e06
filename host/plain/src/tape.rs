//! The tape: its blocks, their check and test, the writer and the reader ("The tape").

use crate::answer::{Refusal, OUTPUT_TOO_SHORT};
use crate::event::all_right;

pub type Block = [u8; 512];

const MOST_BLOCKS: usize = 65_536;
pub const SLOTS: usize = 63;
pub const MOST_EVENTS: usize = MOST_BLOCKS * SLOTS;

/// The count written in a block.
pub fn count_of(block: &Block) -> usize {
    usize::from(u16::from_le_bytes([block[2], block[3]]))
}

/// The used slots of a tested block.
#[inline(always)]
pub fn used_slots(block: &Block) -> &[[u8; 8]] {
    let (slots, _) = block[8..].as_chunks::<8>();
    &slots[..count_of(block)]
}

/// The events of a tested tape.
pub fn events_of(tape: &[Block]) -> usize {
    match tape {
        [whole @ .., last] => SLOTS * whole.len() + count_of(last),
        [] => 0,
    }
}

/// The check of a block, over its 254 words of 16 bits but the check's own two.
///
/// Rows of 16 words are summed word by word, even and odd words of 32 bits apart, and so are these
/// sums after each row. A word of row r counts in the latter 16 - r times; the sum of a after each
/// word has it 16 times as often, less its place in its row. Then the header's words, which stand
/// two places too early, and the check's own are taken out. No sum leaves 32 bits.
pub fn check(block: &Block) -> u32 {
    const LANES: usize = 8;
    let mut sums = [[0u32; LANES]; 2];
    let mut later = [[0u32; LANES]; 2];
    let (rows, _) = block.as_chunks::<{ 4 * LANES }>();
    for row in rows {
        for lane in 0..LANES {
            let at = 4 * lane;
            let word = u32::from_le_bytes([row[at], row[at + 1], row[at + 2], row[at + 3]]);
            sums[0][lane] += word & 0xFFFF;
            sums[1][lane] += word >> 16;
            later[0][lane] += sums[0][lane];
            later[1][lane] += sums[1][lane];
        }
    }
    let mut a = 0;
    let mut b = 0;
    for lane in 0..LANES {
        for odd in 0..2 {
            let sum = u64::from(sums[odd][lane]);
            a += sum;
            b += 16 * u64::from(later[odd][lane]) - (2 * lane + odd) as u64 * sum;
        }
    }
    let word = |at| u64::from(u16::from_le_bytes([block[at], block[at + 1]]));
    a -= word(4) + word(6);
    b -= 2 * word(0) + 2 * word(2) + 254 * word(4) + 253 * word(6);
    (a % 65_535 + 65_536 * (b % 65_535)) as u32
}

/// The blocks of a tape, or its refusal: 6, then block by block 7, 8, its events 5, 9.
pub fn tested<const FAULT: u8>(size: usize, tape: &[u8]) -> Result<&[Block], Refusal> {
    let (blocks, ragged) = tape.as_chunks::<512>();
    if !ragged.is_empty() || blocks.len() > MOST_BLOCKS || FAULT == 18 && blocks.is_empty() {
        return Err(Refusal { number: 6, place: 0 });
    }
    for (position, block) in blocks.iter().enumerate() {
        test_block::<FAULT>(size, block, position, position + 1 == blocks.len())?;
    }
    Ok(blocks)
}

#[inline(always)]
fn test_block<const FAULT: u8>(size: usize, block: &Block, position: usize, last: bool) -> Result<(), Refusal> {
    let refusal = |number| Err(Refusal { number, place: position as u64 });
    if FAULT == 6 && !header_right::<FAULT>(block, position, last) {
        return refusal(8);
    }
    if !check_right::<FAULT>(block) {
        return refusal(7);
    }
    if !header_right::<FAULT>(block, position, last) {
        return refusal(8);
    }
    let (slots, _) = block[8..].as_chunks::<8>();
    let (used, unused) = slots.split_at(count_of(block));
    if let Some(slot) = first_wrong(size, used) {
        let before = if FAULT == 12 { 0 } else { SLOTS * position };
        return Err(Refusal { number: 5, place: (before + slot) as u64 });
    }
    if unused.iter().any(|slot| *slot != [0; 8]) {
        return refusal(9);
    }
    Ok(())
}

fn check_right<const FAULT: u8>(block: &Block) -> bool {
    let written = u32::from_le_bytes([block[4], block[5], block[6], block[7]]);
    let right = check(block);
    written == right || FAULT == 13 && right >> 16 == 0 && written == right | 0xFFFF_0000
}

#[inline]
fn header_right<const FAULT: u8>(block: &Block, position: usize, last: bool) -> bool {
    let number = usize::from(u16::from_le_bytes([block[0], block[1]]));
    let count = count_of(block);
    let least = if FAULT == 19 { 0 } else { 1 };
    number == position && (count == SLOTS || last && (least..SLOTS).contains(&count))
}

/// The first of some events that refusal 5 is due to.
fn first_wrong(size: usize, events: &[[u8; 8]]) -> Option<usize> {
    if all_right(size, events) {
        return None;
    }
    events.iter().position(|event| !all_right(size, &[*event]))
}

/// The events of a list, or its refusal: 6, then its events 5.
pub fn tested_list<const FAULT: u8>(size: usize, list: &[u8]) -> Result<&[[u8; 8]], Refusal> {
    let (events, ragged) = list.as_chunks::<8>();
    if !ragged.is_empty() || events.len() > MOST_EVENTS || FAULT == 18 && events.is_empty() {
        return Err(Refusal { number: 6, place: 0 });
    }
    match first_wrong(size, events) {
        Some(place) => Err(Refusal { number: 5, place: place as u64 }),
        None => Ok(events),
    }
}

/// The blocks of an output that the tape of so many events fills, or refusal 10.
pub fn output_for_tape(events: usize, output: &mut [u8]) -> Result<&mut [Block], Refusal> {
    let (blocks, _) = output.as_chunks_mut::<512>();
    blocks.get_mut(..events.div_ceil(SLOTS)).ok_or(OUTPUT_TOO_SHORT)
}

/// The bytes of an output that the list of a tape fills, or refusal 10.
pub fn output_for_list<'a>(tape: &[Block], output: &'a mut [u8]) -> Result<&'a mut [u8], Refusal> {
    output.get_mut(..8 * events_of(tape)).ok_or(OUTPUT_TOO_SHORT)
}

/// Writes a tested list as blocks.
pub fn write<const FAULT: u8>(list: &[[u8; 8]], output: &mut [Block]) {
    for (number, (block, events)) in output.iter_mut().zip(list.chunks(SLOTS)).enumerate() {
        block[8..8 + 8 * events.len()].copy_from_slice(events.as_flattened());
        close(block, number, events.len());
    }
}

/// Gives a block, whose used slots are written, all the rest: number, count, zeros behind them, and its check.
#[inline(always)]
pub fn close(block: &mut Block, number: usize, used: usize) {
    block[..2].copy_from_slice(&(number as u16).to_le_bytes());
    block[2..4].copy_from_slice(&(used as u16).to_le_bytes());
    block[8 + 8 * used..].fill(0);
    let check = check(block);
    block[4..8].copy_from_slice(&check.to_le_bytes());
}

/// Reads the events of a tested tape.
pub fn read(tape: &[Block], output: &mut [u8]) {
    for (events, block) in output.chunks_mut(8 * SLOTS).zip(tape) {
        events.copy_from_slice(used_slots(block).as_flattened());
    }
}
