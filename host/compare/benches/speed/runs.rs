//! Runs: 2, 8 and 64 processes, tapes of 1, 64 and 65,536 blocks, guided and uniform events, a ledger
//! with room for a record an event and one that fits exactly.
//!
//! Every run starts from the same image, one that has been in use for a while. Short tapes come in a
//! pool of many different ones, so that no side learns a single list by heart; the images are
//! restored between the timed groups.

use crate::same::same;
use crate::table::{Table, Unit};
use crate::timing::{by_turns, Effort, Medians, Spent};
use compare::calls::Calls;
use compare::used::used_image;
use guide::Random;
use std::hint::black_box;

const SIZES: [u64; 3] = [2, 8, 64];
const BLOCKS: [usize; 3] = [1, 64, 65_536];
const KINDS: [&str; 2] = ["guided", "uniform"];
const LEDGERS: [&str; 2] = ["room", "exact"];

/// The blocks that a pool has at least, and the runs timed together.
const POOL_BLOCKS: usize = 1_024;
const GROUP: usize = 32;

pub fn measure(table: &mut Table, effort: Effort) {
    for n in SIZES {
        for kind in KINDS {
            measure_kind(table, effort, n, kind);
        }
    }
}

fn measure_kind(table: &mut Table, effort: Effort, n: u64, kind: &str) {
    let mut taken = [[None; BLOCKS.len()]; LEDGERS.len()];
    for (column, blocks) in BLOCKS.into_iter().enumerate() {
        let name = |ledger: &str| format!("run {n} x {blocks} {kind} {ledger}");
        let wanted = LEDGERS.map(|ledger| table.wants(&name(ledger)));
        if wanted == [false; LEDGERS.len()] {
            continue;
        }
        let mut pool = Pool::new(n, blocks, kind);
        for (row, ledger) in LEDGERS.into_iter().enumerate().filter(|(row, _)| wanted[*row]) {
            let medians = pool.timed(effort, ledger == "exact");
            table.line(&name(ledger), Unit::Event, medians, &pool.remark());
            taken[row][column] = Some(medians);
        }
    }
    for (row, ledger) in LEDGERS.into_iter().enumerate() {
        if let [_, Some(few), Some(many)] = taken[row] {
            table.keep_growth(format!("run {n} {kind} {ledger}"), few, many);
        }
    }
}

/// A tape with its number of events and of records.
struct Tape {
    bytes: Vec<u8>,
    events: usize,
    records: usize,
}

/// The tapes of a line, and the buffers of its calls.
struct Pool {
    start: Vec<u8>,
    tapes: Vec<Tape>,
    images: Vec<Vec<u8>>,
    ledger: Vec<u8>,
    idle: u64,
}

impl Pool {
    /// Makes the tapes and runs each once on both sides, which also warms them and the buffers.
    fn new(n: u64, blocks: usize, kind: &str) -> Pool {
        let mut random = Random::new(1_000 * n + blocks as u64);
        let start = used_image(n, &mut random);
        let events = 63 * blocks;
        let mut pool = Pool {
            images: vec![start.clone(); GROUP],
            ledger: vec![0; 12 * events],
            tapes: Vec::new(),
            idle: 0,
            start,
        };
        for _ in 0..POOL_BLOCKS.div_ceil(blocks) {
            let list = match kind {
                "guided" => guide::guided(&pool.start, events, &mut random),
                _ => guide::uniform(n, events, &mut random),
            };
            pool.add(Tape { bytes: guide::tape(n, &list), events, records: 0 });
        }
        pool
    }

    /// Adds a tape after both sides have run it alike, with either ledger.
    fn add(&mut self, mut tape: Tape) {
        let roomy = same("a run with room", |side| self.seen(side, &tape, 12 * tape.events));
        let words: Vec<u64> =
            roomy.result.chunks_exact(8).map(|word| u64::from_le_bytes(word.try_into().unwrap())).collect();
        tape.records = words[7] as usize;
        self.idle += words[6];
        let exact = same("a run that fits", |side| self.seen(side, &tape, 12 * tape.records));
        assert!(roomy == exact, "the ledger's room makes a difference");
        self.tapes.push(tape);
    }

    /// All that a run shows.
    fn seen(&mut self, side: &Calls, tape: &Tape, room: usize) -> Seen {
        self.ledger.fill(0xA5);
        let mut image = self.start.clone();
        let mut result = vec![0xA5; 80];
        let number = (side.run)(&mut image, &tape.bytes, &mut self.ledger[..room], &mut result);
        assert_eq!(number, 0, "a run is refused");
        Seen { image, ledger: self.ledger.clone(), result }
    }

    fn timed(&mut self, effort: Effort, exact: bool) -> Medians {
        let rounds = if self.tapes.len() == 1 { effort.long_rounds } else { effort.rounds };
        by_turns(rounds, effort.least, |side, spent| self.pass(side, exact, spent))
    }

    /// Runs each tape of the pool once.
    fn pass(&mut self, side: &Calls, exact: bool, spent: &mut Spent) {
        let mut result = [0; 80];
        for group in self.tapes.chunks(GROUP) {
            self.images.iter_mut().for_each(|image| image.copy_from_slice(&self.start));
            let events = group.iter().map(|tape| tape.events).sum();
            spent.on(events, || {
                for (tape, image) in group.iter().zip(&mut self.images) {
                    let room = 12 * if exact { tape.records } else { tape.events };
                    let ledger = black_box(&mut self.ledger[..room]);
                    black_box((side.run)(black_box(image), black_box(&tape.bytes), ledger, &mut result));
                }
            });
        }
    }

    /// The share of events that are not idle, and of records.
    fn remark(&self) -> String {
        let events: usize = self.tapes.iter().map(|tape| tape.events).sum();
        let records: usize = self.tapes.iter().map(|tape| tape.records).sum();
        let percent = |part: f64| 100.0 * part / events as f64;
        let idle = percent(self.idle as f64);
        format!("{:.0} % not idle, {:.1} % records", 100.0 - idle, percent(records as f64))
    }
}

#[derive(PartialEq)]
struct Seen {
    image: Vec<u8>,
    ledger: Vec<u8>,
    result: Vec<u8>,
}
