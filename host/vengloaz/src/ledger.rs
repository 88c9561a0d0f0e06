//! The records of a ledger, and where two ledgers differ.

use std::fmt;

use crate::Outcome;

/// The bytes of a record.
const RECORD: usize = 12;

/// A record of a ledger: an event that filled, took, sent or got.
///
/// ```
/// use vengloaz::{Outcome, Record};
///
/// let record = Record { event: 7, process: 1, outcome: Outcome::Fill(9) };
/// assert_eq!(record.to_bytes(), [7, 0, 0, 0, 1, 2, 0, 0, 9, 0, 0, 0]);
/// assert_eq!(Record::from_bytes(record.to_bytes()), Some(record));
/// assert_eq!(record.to_string(), "7 1 fill 9");
/// ```
#[derive(Clone, Copy, Debug, PartialEq, Eq, Hash)]
pub struct Record {
    /// The event's number on the tape, from 0.
    pub event: u32,
    /// The event's process.
    pub process: u8,
    /// [`Outcome::Fill`], [`Outcome::Take`], [`Outcome::Sent`] or [`Outcome::Got`].
    pub outcome: Outcome,
}

impl Record {
    /// The 12 bytes of the record: event number, process, the outcome's number, two zeros, message
    /// (0 for sent and got).
    pub const fn to_bytes(self) -> [u8; RECORD] {
        let [e0, e1, e2, e3] = self.event.to_le_bytes();
        let [m0, m1, m2, m3] = self.outcome.message().to_le_bytes();
        [e0, e1, e2, e3, self.process, self.outcome.number(), 0, 0, m0, m1, m2, m3]
    }

    /// The record that these 12 bytes are. `None` if they are none, as where no run has written: idle
    /// and moved events have no record.
    pub const fn from_bytes(bytes: [u8; RECORD]) -> Option<Self> {
        let [e0, e1, e2, e3, process, code @ 2..=5, 0, 0, m0, m1, m2, m3] = bytes else {
            return None;
        };
        let Some(outcome) = Outcome::from_number(code as u64, u32::from_le_bytes([m0, m1, m2, m3])) else {
            return None;
        };
        Some(Record { event: u32::from_le_bytes([e0, e1, e2, e3]), process, outcome })
    }
}

/// As ringrun prints it: event, process, outcome, message (0 for sent and got).
impl fmt::Display for Record {
    fn fmt(&self, out: &mut fmt::Formatter<'_>) -> fmt::Result {
        let Record { event, process, outcome } = self;
        write!(out, "{event} {process} {} {}", outcome.word(), outcome.message())
    }
}

/// The records of a ledger, in order.
///
/// Give it the bytes that a run wrote, `&ledger[..counts.ledger_bytes()]`; a longer ledger keeps its
/// further bytes, which may look like records. Where bytes aren't a record, or are fewer than 12, the
/// records end.
///
/// ```
/// use vengloaz::{records, Outcome};
///
/// let ledger = [
///     7, 0, 0, 0, 1, 2, 0, 0, 9, 0, 0, 0, //
///     14, 0, 0, 0, 1, 4, 0, 0, 0, 0, 0, 0, //
///     17, 0, 0, 0, 0, 3, 0, 0, 9, 0, 0, 0, //
/// ];
/// let mut taken = Vec::new();
/// for record in records(&ledger) {
///     if let Outcome::Take(message) = record.outcome {
///         taken.push((record.event, message));
///     }
/// }
/// assert_eq!(taken, [(17, 9)]);
/// ```
pub fn records(ledger: &[u8]) -> Records<'_> {
    Records { rest: ledger }
}

/// The iterator that [`records`] gives.
#[derive(Clone, Debug)]
pub struct Records<'a> {
    rest: &'a [u8],
}

impl Iterator for Records<'_> {
    type Item = Record;

    fn next(&mut self) -> Option<Record> {
        let (bytes, rest) = self.rest.split_first_chunk()?;
        let record = Record::from_bytes(*bytes)?;
        self.rest = rest;
        Some(record)
    }
}

/// Once the records have ended, there are no more.
impl std::iter::FusedIterator for Records<'_> {}

/// Where a core's ledger first differs from the reference's, or `None` if they are the same bytes.
///
/// Every byte counts, in records and behind them, so give it the bytes that were written and no more:
/// of the reference `&ledger[..counts.ledger_bytes()]`.
///
/// ```
/// use vengloaz::first_difference;
///
/// let reference = [7, 0, 0, 0, 1, 2, 0, 0, 9, 0, 0, 0, 14, 0, 0, 0, 1, 4, 0, 0, 0, 0, 0, 0];
/// let mut core = reference;
/// assert_eq!(first_difference(&reference, &core), None);
///
/// core[12] = 15;
/// let difference = first_difference(&reference, &core).unwrap();
/// assert_eq!(difference.record, 1);
/// assert_eq!(difference.to_string(), "record 1: reference 14 1 sent 0, core 15 1 sent 0");
///
/// let difference = first_difference(&reference, &core[..12]).unwrap();
/// assert_eq!(difference.to_string(), "record 1: reference 14 1 sent 0, core has none");
/// ```
pub fn first_difference<'a>(reference: &'a [u8], core: &'a [u8]) -> Option<Difference<'a>> {
    let same = reference.iter().zip(core).take_while(|(one, other)| one == other).count();
    if same == reference.len() && same == core.len() {
        return None;
    }
    let record = same / RECORD;
    let there = |ledger: &'a [u8]| ledger.chunks(RECORD).nth(record).unwrap_or_default();
    Some(Difference { record, reference: there(reference), core: there(core) })
}

/// The first record in which two ledgers differ, as [`first_difference`] finds it.
#[derive(Clone, Copy, Debug, PartialEq, Eq)]
pub struct Difference<'a> {
    /// The record's number in the ledgers, from 0.
    pub record: usize,
    /// The reference's bytes of it: 12, fewer where its ledger breaks off, none where it has ended.
    pub reference: &'a [u8],
    /// The core's bytes of it.
    pub core: &'a [u8],
}

/// `record 2: reference 17 0 take 7, core 17 0 take 8`; bytes that are no record are shown in hexadecimal.
impl fmt::Display for Difference<'_> {
    fn fmt(&self, out: &mut fmt::Formatter<'_>) -> fmt::Result {
        let Difference { record, reference, core } = self;
        write!(out, "record {record}: reference {}, core {}", shown(reference), shown(core))
    }
}

/// A record's line, the bytes that are none, or that there are none.
fn shown(bytes: &[u8]) -> String {
    match bytes.try_into().ok().and_then(Record::from_bytes) {
        Some(record) => record.to_string(),
        None if bytes.is_empty() => "has none".to_string(),
        None => format!("[{}]", bytes.iter().map(|byte| format!("{byte:02x}")).collect::<Vec<_>>().join(" ")),
    }
}
