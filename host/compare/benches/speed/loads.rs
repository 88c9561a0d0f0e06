//! Loads: tapes of 64 and of 65,536 blocks drawn for 8 and for 64 processes, each time from another seed.

use crate::same::same;
use crate::table::{Table, Unit};
use crate::timing::{by_turns, Effort, Spent};
use std::hint::black_box;

const SIZES: [u64; 2] = [8, 64];
const BLOCKS: [usize; 2] = [64, 65_536];

pub fn measure(table: &mut Table, effort: Effort) {
    for n in SIZES {
        for blocks in BLOCKS {
            let name = format!("load {n} x {blocks}");
            if table.wants(&name) {
                measure_load(table, effort, n, blocks, &name);
            }
        }
    }
}

fn measure_load(table: &mut Table, effort: Effort, n: u64, blocks: usize, name: &str) {
    let events = 63 * blocks;
    let mut tape = vec![0; 512 * blocks];
    same("a load", |side| {
        let mut result = [0xA5; 80];
        tape.fill(0xA5);
        ((side.load)(n, 1, events as u64, &mut tape, &mut result), result, tape.clone())
    });
    let mut result = [0; 80];
    let rounds = if blocks == 64 { effort.rounds } else { effort.long_rounds };
    let taken = by_turns(rounds, effort.least, |side, spent: &mut Spent| {
        let seed = 1 + spent.units as u64;
        spent.on(events, || {
            black_box((side.load)(n, black_box(seed), events as u64, black_box(&mut tape), &mut result));
        });
    });
    table.line(name, Unit::Event, taken, "drawn from a seed");
}
