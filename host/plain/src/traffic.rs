//! Traffic: requests put on the link to the left, and departures of the envelope (document 02, A.4).

use std::ops::AddAssign;

use crate::image::{ASKED_EMPTY, ASKED_FULL};

/// Both numbers in one word, so that they are added in one: requests in its lower half, departures in its upper one.
/// The longest tape has room in either.
#[derive(Clone, Copy)]
pub struct Traffic(u64);

impl Traffic {
    pub const NONE: Traffic = Traffic(0);
    pub const DEPARTURE: Traffic = Traffic(1 << 32);

    /// A request for each status whose 'asked itself' bit is given.
    #[inline(always)]
    pub fn of_requests(asked: u64) -> Traffic {
        Traffic((asked & ASKED_FULL) / ASKED_FULL + (asked & ASKED_EMPTY) / ASKED_EMPTY)
    }

    pub fn requests(self) -> u64 {
        self.0 & 0xFFFF_FFFF
    }

    pub fn departures(self) -> u64 {
        self.0 >> 32
    }
}

impl AddAssign for Traffic {
    #[inline(always)]
    fn add_assign(&mut self, more: Traffic) {
        self.0 += more.0;
    }
}
