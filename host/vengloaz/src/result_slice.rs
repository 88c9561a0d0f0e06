//! The result slice that the library's functions fill, read: what it tells as values.

use crate::{Counts, Findings, Outcome, Ran, Refusal, Stepped, Traffic};

/// The bytes of a result slice.
const LENGTH: usize = 80;

/// A result slice: ten words of 64 bits.
pub(crate) struct ResultSlice([u8; LENGTH]);

impl ResultSlice {
    /// Makes a call with a result slice, and gives back the slice or the refusal of the number returned.
    pub(crate) fn of(call: impl FnOnce(&mut [u8]) -> u64) -> Result<Self, Refusal> {
        let mut result = ResultSlice([0; LENGTH]);
        match call(&mut result.0) {
            0 => Ok(result),
            number => Err(refusal(number, result.word(0))),
        }
    }

    /// Word 0 to 9.
    pub(crate) fn word(&self, index: usize) -> u64 {
        let mut bytes = [0; 8];
        bytes.copy_from_slice(&self.0[8 * index..8 * index + 8]);
        u64::from_le_bytes(bytes)
    }

    /// What a step tells.
    pub(crate) fn stepped(&self) -> Stepped {
        Stepped { outcome: self.outcome(), traffic: self.traffic(2) }
    }

    /// What a run tells.
    pub(crate) fn ran(&self) -> Ran {
        Ran { counts: self.counts(), traffic: self.traffic(8) }
    }

    fn outcome(&self) -> Outcome {
        let (number, message) = (self.word(0), self.word(1));
        Outcome::from_number(number, message as u32)
            .unwrap_or_else(|| unreachable!("the step call's contract has no outcome {number} with {message}"))
    }

    fn counts(&self) -> Counts {
        Counts {
            puts: self.word(0),
            gets: self.word(1),
            fills: self.word(2),
            takes: self.word(3),
            sent: self.word(4),
            got: self.word(5),
            idle: self.word(6),
            records: self.word(7),
        }
    }

    /// The traffic told from this word on.
    fn traffic(&self, first: usize) -> Traffic {
        Traffic { requests: self.word(first), departures: self.word(first + 1) }
    }

    /// The findings that a survey tells.
    pub(crate) fn findings(&self) -> Findings {
        let verdict = match self.word(0) {
            0 => Ok(()),
            number => Err(refusal(number, self.word(1))),
        };
        Findings { verdict, flags: self.word(2) as u32, full: self.word(3), empty: self.word(4) }
    }
}

/// The refusal of a number and a place that a call gave.
fn refusal(number: u64, place: u64) -> Refusal {
    Refusal::from_number(number, place).unwrap_or_else(|| unreachable!("the calls' contracts have no refusal {number}"))
}
