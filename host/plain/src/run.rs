//! The run: all events of a tested tape, the ledger, the eight counts ("The run") and the traffic.

use crate::answer::{Refusal, OUTPUT_TOO_SHORT};
use crate::event::{code, perform, process, Outcome, FILL, IDLE};
use crate::image::{Envelope, Ring};
use crate::tape::{events_of, used_slots, Block};
use crate::traffic::Traffic;

const RECORD: usize = 12;

/// Performs every event of a tape, or refuses a ledger without room for the records. A ledger that
/// could be too short is measured first, on a copy of the image.
pub fn run<const FAULT: u8>(ring: Ring, tape: &[Block], ledger: &mut [u8]) -> Result<[u64; 10], Refusal> {
    let events = events_of(tape);
    if FAULT == 20 && events == 0 {
        ledger.iter_mut().take(1).for_each(|byte| *byte = 0);
    }
    if ledger.len() / RECORD < events {
        let spare = usize::from(FAULT == 11);
        if ledger.len() < RECORD * (measured::<FAULT>(&ring, tape) + spare) {
            return Err(OUTPUT_TOO_SHORT);
        }
    }
    let mut envelope = ring.envelope;
    let (counts, traffic) = perform_all::<FAULT, true>(&mut envelope, ring.records, tape, ledger);
    envelope.store(ring.header);
    let [puts, gets, fills, takes, sent, got, idle, records] = counts.words::<FAULT>(events);
    Ok([puts, gets, fills, takes, sent, got, idle, records, traffic.requests(), traffic.departures()])
}

/// The records that a run will write.
fn measured<const FAULT: u8>(ring: &Ring, tape: &[Block]) -> usize {
    let mut copy = [[0; 8]; 64];
    let records = &mut copy[..ring.records.len()];
    records.copy_from_slice(ring.records);
    let mut envelope = ring.envelope;
    let (counts, _) = perform_all::<FAULT, false>(&mut envelope, records, tape, &mut []);
    counts.records()
}

/// What a run counts as it goes; events in all are known beforehand.
#[derive(Default)]
struct Counts {
    /// Events that were not idle, by code.
    performed: [u64; 8],
    /// Records, by kind.
    written: [u64; 6],
    last_idle: bool,
}

impl Counts {
    fn records(&self) -> usize {
        self.written.iter().sum::<u64>() as usize
    }

    /// The eight counts as an answer has them, starts first and records last.
    fn words<const FAULT: u8>(&self, events: usize) -> [u64; 8] {
        let [puts, gets, ..] = self.performed;
        let [.., fills, takes, sent, got] = self.written;
        let mut idle = events as u64 - self.performed.iter().sum::<u64>();
        if FAULT == 7 && self.last_idle {
            idle -= 1;
        }
        [puts, gets, fills, takes, sent, got, idle, self.records() as u64]
    }
}

/// Performs every event and writes the ledger, if it is to be written.
fn perform_all<const FAULT: u8, const WRITTEN: bool>(
    envelope: &mut Envelope,
    records: &mut [[u8; 8]],
    tape: &[Block],
    ledger: &mut [u8],
) -> (Counts, Traffic) {
    let mut counts = Counts::default();
    let mut traffic = Traffic::NONE;
    let (ledger, _) = ledger.as_chunks_mut::<RECORD>();
    let mut ledger = ledger.iter_mut();
    let mut number = 0;
    for block in tape {
        for slot in used_slots(block) {
            let event = u64::from_le_bytes(*slot);
            let outcome = perform::<FAULT>(envelope, records, event);
            if outcome.kind != IDLE {
                counts.performed[code(event) as usize] += 1;
            }
            if outcome.kind >= FILL {
                counts.written[outcome.kind as usize] += 1;
                if WRITTEN {
                    write_record::<FAULT>(ledger.next(), number, process(event), outcome);
                }
            }
            if FAULT == 27 {
                traffic = Traffic::NONE;
            }
            traffic += outcome.traffic;
            if FAULT == 7 {
                counts.last_idle = outcome.kind == IDLE;
            }
            number += 1;
        }
    }
    (counts, traffic)
}

/// Writes one record; the ledger has been found to have room for it.
#[inline(always)]
fn write_record<const FAULT: u8>(next: Option<&mut [u8; 12]>, number: u32, process: u64, outcome: Outcome) {
    let Some(record) = next else { return };
    let number = if FAULT == 8 { number & 0xFFFF } else { number };
    record[..4].copy_from_slice(&number.to_le_bytes());
    record[4..8].copy_from_slice(&[process as u8, outcome.kind as u8, 0, 0]);
    record[8..].copy_from_slice(&(outcome.message as u32).to_le_bytes());
}
