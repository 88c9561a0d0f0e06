//! Smaller tapes, for the shrinker to try.

use std::iter;

use crate::damage::small_blocks_with_wrong_half;
use crate::shrink::changed;
use crate::tape::{Block, Seal, Tape, SLOTS};

/// Tapes without a tail, with a block fewer, or with a smaller block.
pub fn smaller_tapes(tape: &Tape) -> impl Iterator<Item = Tape> + '_ {
    let without_tail = iter::once_with(move || changed(tape, |tape| tape.tail.clear()));
    let places = 0..tape.blocks.len();
    let fewer = places
        .clone()
        .rev()
        .flat_map(|place| [false, true].map(|renumbered| changed(tape, |tape| tape.drop_block(place, renumbered))));
    let smaller = places.flat_map(move |place| {
        let blocks = smaller_blocks(&tape.blocks[place], place).into_iter();
        blocks.map(move |block| changed(tape, |tape| tape.blocks[place] = block))
    });
    without_tail.chain(fewer).chain(smaller)
}

/// What a block at this place could become: one of the small ones with a wrong check, if it is larger; one with
/// something right, or with fewer events.
fn smaller_blocks(block: &Block, place: usize) -> Vec<Block> {
    let used: Vec<usize> = (0..SLOTS).filter(|slot| block.slot(*slot) != [0; 8]).collect();
    let mut blocks = Vec::new();
    if used.len() > 1 {
        blocks.extend(small_blocks_with_wrong_half());
    }
    blocks.push(changed(block, |block| block.seal = Seal::Right));
    blocks.push(changed(block, |block| block.set_number(place as u16)));
    blocks.push(changed(block, |block| block.set_count(1)));
    let (first, last) = used.split_at(used.len() / 2);
    let emptied = [&used[..], first, last].into_iter().chain(used.chunks(1));
    blocks.extend(emptied.map(|slots| changed(block, |block| block.empty(slots))));
    blocks
}
