//! What put does (event 7), its news already cleared: ask, pass requests, mark, clear and forward.

use crate::event::{Outcome, GOT, MOVED, SENT};
use crate::image::*;
use crate::traffic::Traffic;

const RIGHT_ASKED: u64 = RIGHT_ASKED_FULL | RIGHT_ASKED_EMPTY;
const GONE_WITH_ENVELOPE: u64 = HAVE | RIGHT_ASKED | ASKED_FULL | ASKED_EMPTY;

/// A put at work: the ring, its process, the record of it, which is written last, and what it has sent.
pub struct Put<'a, const FAULT: u8> {
    pub envelope: &'a mut Envelope,
    pub records: &'a mut [[u8; 8]],
    pub process: usize,
    pub record: u64,
    pub traffic: Traffic,
}

impl<const FAULT: u8> Put<'_, FAULT> {
    /// Performs put and gives the outcome.
    #[inline(always)]
    pub fn perform(mut self) -> Outcome {
        let kind = if self.record & HAVE == 0 { self.without_envelope() } else { self.with_envelope() };
        self.records[self.process] = self.record.to_le_bytes();
        Outcome { kind, message: 0, traffic: self.traffic }
    }

    /// Stages 0, 1, 6 pass requests; 2 and 7 ask for themselves first. The others have the
    /// envelope.
    #[inline(always)]
    fn without_envelope(&mut self) -> u64 {
        let wish = match self.record & STAGE {
            2 => ASKED_EMPTY,
            7 => ASKED_FULL,
            _ => 0,
        };
        self.ask(wish | (self.record & RIGHT_ASKED) << 2);
        MOVED
    }

    #[inline(always)]
    fn with_envelope(&mut self) -> u64 {
        let full = self.envelope.status() == 1;
        match self.record & STAGE {
            2 if !full => self.record += 1,
            7 if full => self.record += 1,
            3 | 4 | 8 | 9 => {}
            5 => return self.end_put(),
            10 => return self.end_get(),
            2 => self.mark_and_forward(MARKED_EMPTY),
            7 => self.mark_and_forward(MARKED_FULL),
            _ => {
                self.forward();
            }
        }
        MOVED
    }

    /// Stage 5.
    #[inline(always)]
    fn end_put(&mut self) -> u64 {
        if !self.clear_and_forward(EMPTY_WANTED) {
            return MOVED;
        }
        self.record &= !STAGE;
        if FAULT == 26 {
            self.traffic = Traffic::NONE;
        }
        SENT
    }

    /// Stage 10.
    #[inline(always)]
    fn end_get(&mut self) -> u64 {
        self.clear_and_forward(FULL_WANTED);
        self.record &= !STAGE;
        GOT
    }

    /// Asks for each status whose 'asked itself' bit is given, unless it has asked already.
    #[inline(always)]
    fn ask(&mut self, statuses: u64) {
        let asking = statuses & !self.record;
        let left = &mut self.records[left_of(self.process, self.envelope.size())];
        let waiting = u64::from_le_bytes(*left);
        *left = (waiting | asking << 4).to_le_bytes();
        self.record |= if FAULT == 2 { asking & !(waiting >> 4) } else { asking };
        self.traffic = Traffic::of_requests(match FAULT {
            24 => asking & !(waiting >> 4),
            25 if asking & ASKED_FULL != 0 => ASKED_FULL,
            _ => asking,
        });
    }

    #[inline(always)]
    fn mark_and_forward(&mut self, mark: u64) {
        let marking = if FAULT == 5 { mark } else { mark & !self.record };
        self.record |= marking;
        self.envelope.word += counted(marking);
        self.forward();
    }

    #[inline(always)]
    fn clear_and_forward(&mut self, marker: u64) -> bool {
        if FAULT == 3 {
            let left = self.forward();
            self.clear(marker);
            return left;
        }
        self.clear(marker);
        self.forward()
    }

    /// The marker goes off, and the process' own mark with its count.
    #[inline(always)]
    fn clear(&mut self, marker: u64) {
        let mark = self.record & marker << 4;
        self.record ^= mark;
        self.envelope.word = (self.envelope.word & !marker) - counted(mark);
    }

    /// Requests of the right set their markers; then the envelope leaves if its present status is
    /// wanted.
    #[inline(always)]
    fn forward(&mut self) -> bool {
        let before = self.envelope.word;
        self.envelope.word |= self.record & RIGHT_ASKED;
        let full = self.envelope.status() == 1;
        let wanted = if full { FULL_WANTED | COUNT_FULL } else { EMPTY_WANTED | COUNT_EMPTY };
        if self.envelope.word & wanted == 0 {
            if FAULT == 4 {
                self.envelope.word = before;
            }
            return false;
        }
        self.record &= !GONE_WITH_ENVELOPE;
        let right = &mut self.records[right_of::<FAULT>(self.process, self.envelope.size())];
        *right = (u64::from_le_bytes(*right) | ARRIVING).to_le_bytes();
        self.traffic = Traffic::DEPARTURE;
        true
    }
}

/// A mark as one more in the header's count of it.
#[inline(always)]
fn counted(mark: u64) -> u64 {
    (mark & MARKED_FULL) << 4 | (mark & MARKED_EMPTY) << 11
}

#[inline(always)]
fn left_of(process: usize, size: usize) -> usize {
    if process == 0 {
        size - 1
    } else {
        process - 1
    }
}

#[inline(always)]
fn right_of<const FAULT: u8>(process: usize, size: usize) -> usize {
    if process + 1 < size {
        process + 1
    } else if FAULT == 1 && size == 37 {
        1
    } else {
        0
    }
}
