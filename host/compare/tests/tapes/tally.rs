//! Counts of what was exercised, and how much must be at the least.

use crate::case::{Call, Case};
use compare::case::Case as _;
use compare::compare::Answer;
use compare::counts::{Counts, Missing};
use compare::damage::{event_causes, tape_causes};
use compare::watch::{self, key};

/// What was exercised.
#[derive(Default)]
pub struct Tally {
    /// Calls.
    pub calls: u64,
    /// Events written, read and drawn.
    pub events: u64,
    /// Loads, by N.
    loads: Counts<u64>,
    /// Calls of writer, reader and load with no events, by name.
    nothing: Counts<&'static str>,
    /// Refusals, by call, number and cause.
    refusals: Counts<String>,
}

impl watch::Tally for Tally {
    type Case = Case;

    fn count(&mut self, case: &Case, answer: &Answer) {
        self.calls += 1;
        if answer.number == 0 {
            self.events += case.events() as u64;
            self.nothing.add(case.name(), u64::from(case.events() == 0));
            if let Call::Load(..) = case.call {
                self.loads.add(case.n, 1);
            }
        }
    }

    fn count_refusal(&mut self, key: String) {
        self.refusals.add(key, 1);
    }
}

impl Tally {
    /// What was exercised too little.
    pub fn missing(&self) -> Missing {
        let mut missing = Missing::default();
        missing.least("events", self.events, 24_000_000);
        (2..=64).for_each(|n| missing.least(&format!("loads for N = {n}"), self.loads.of(&n), 90));
        for call in ["write", "read", "load"] {
            missing.least(&format!("{call} of no events"), self.nothing.of(&call), 500);
        }
        let mut least = |call: &str, number: u64, cause: &str, least: u64| {
            let key = key(call, number, cause);
            missing.least(&key, self.refusals.of(&key), least);
        };
        least("fresh", 2, "home not below N", 500);
        least("fresh", 2, "home not below N, no output", 500);
        least("fresh", 3, "image buffer short", 10_000);
        least("write", 6, "ragged", 400);
        least("write", 6, "ragged, with wrong events", 400);
        for cause in ["seed 0", "seed above 2,147,483,646"] {
            least("load", 11, cause, 63);
            least("load", 11, &format!("{cause}, and all else wrong"), 63);
        }
        least("load", 6, "too many events", 126);
        least("load", 6, "too many events, and no output", 126);
        for call in ["fresh", "write", "read", "load"] {
            least(call, 1, "N outside 2 to 64", 20);
            least(call, 10, "result under 80 bytes", 5_000);
        }
        for call in ["write", "read"] {
            least(call, 6, "too long", 1);
        }
        for call in ["write", "read", "load"] {
            for cause in ["a byte short", "a block or event short", "no bytes"] {
                least(call, 10, cause, 63);
            }
        }
        for cause in event_causes() {
            for at in ["first", "middle", "last"] {
                least("write", 5, &format!("{}, {at} event", cause.name), 63);
            }
        }
        tape_causes().iter().for_each(|cause| least("read", cause.number, &cause.name, 63));
        missing
    }
}
