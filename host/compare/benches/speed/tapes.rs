//! The tape's test alone: runs that are refused with 7 at the last of 64 and of 65,536 blocks.

use crate::same::same;
use crate::table::{Table, Unit};
use crate::timing::{by_turns, Effort, Spent};
use guide::Random;
use std::hint::black_box;

const SIZE: u64 = 8;

pub fn measure(table: &mut Table, effort: Effort) {
    for blocks in [64, 65_536] {
        let name = format!("tape's test x {blocks}");
        if table.wants(&name) {
            measure_test(table, effort, blocks, &name);
        }
    }
}

fn measure_test(table: &mut Table, effort: Effort, blocks: usize, name: &str) {
    let list = guide::uniform(SIZE, 63 * blocks, &mut Random::new(blocks as u64));
    let mut tape = guide::tape(SIZE, &list);
    let last = tape.len() - 1;
    tape[last] ^= 1;
    let mut image = guide::fresh(SIZE, 0);
    let mut ledger = vec![0; 12 * 63 * blocks];
    let mut result = [0; 80];
    let (number, result_seen) = same("a refused run", |side| {
        let mut result = [0xA5; 80];
        ((side.run)(&mut image, &tape, &mut ledger, &mut result), result)
    });
    assert_eq!((number, &result_seen[..8]), (7, &(blocks as u64 - 1).to_le_bytes()[..]));
    let taken = by_turns(effort.rounds, effort.least, |side, spent: &mut Spent| {
        spent.on(tape.len(), || {
            black_box((side.run)(&mut image, black_box(&tape), &mut ledger, &mut result));
        });
    });
    table.line(name, Unit::Byte, taken, "refused with 7 at the last block");
}
