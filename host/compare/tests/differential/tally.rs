//! Counts of what was exercised.

use crate::case::{Call, Case};
use crate::image::{at, size, HAVE, NEWS};
use crate::surveys::found;
use crate::traffic::{shown_by_run, shown_by_step, Traffic};
use compare::case::Case as _;
use compare::compare::Answer;
use compare::counts::Counts;
use compare::link::crosses;
use compare::watch;
use samples::crossing_lists::{EMPTY, FULL};

/// What was exercised.
#[derive(Default)]
pub struct Tally {
    /// Whether the images at hand are ones that a ring gets to: crossings are counted there only.
    pub reached: bool,
    /// Calls.
    pub calls: u64,
    /// Surveys among them.
    pub surveys: u64,
    /// Events performed, by step and by run.
    pub events: u64,
    /// Those of them that were idle.
    pub idle: u64,
    /// What they sent.
    pub traffic: Traffic,
    /// Fills, by N.
    pub fills: Counts<usize>,
    /// Takes, by N.
    pub takes: Counts<usize>,
    /// Ways that steps and stopped calls took, what steps and runs showed of their traffic, and what surveys found, by
    /// name.
    pub ways: Counts<&'static str>,
    /// Surveys of images that aren't sound, by cause.
    pub unsound: Counts<String>,
    /// Refusals, by call, number and cause.
    pub refusals: Counts<String>,
}

/// The outcomes of a step, by number.
pub const OUTCOMES: [&str; 6] = ["idle", "moved", "fill", "take", "sent", "got"];

/// The other ways that a step or a stopped call may take.
pub const WAYS: [&str; 42] = [
    "stopped: yes",
    "stopped: no",
    "event 0 possible",
    "event 1 possible",
    "event 2 possible",
    "event 3 possible",
    "event 4 possible",
    "event 5 possible",
    "event 6 possible",
    "event 0 idle",
    "event 1 idle",
    "event 2 idle",
    "event 3 idle",
    "event 4 idle",
    "event 5 idle",
    "event 6 idle",
    "event 7 idle",
    "put 0, left",
    "put 0, stayed",
    "put 0, without",
    "put 1, left",
    "put 1, stayed",
    "put 1, without",
    "put 6, left",
    "put 6, stayed",
    "put 6, without",
    "put 2, left",
    "put 2, stayed",
    "put 2, without",
    "put 2, to 3",
    "put 7, left",
    "put 7, stayed",
    "put 7, without",
    "put 7, to 8",
    "put 5, left",
    "put 5, stayed",
    "put 10, left",
    "put 10, stayed",
    "put 3",
    "put 4",
    "put 8",
    "put 9",
];

/// The crossings of a request and the envelope on a link that steps met, by request and status.
pub const CROSSINGS: [&str; 4] = [
    "request full crosses empty",
    "request full crosses full",
    "request empty crosses empty",
    "request empty crosses full",
];

/// A known list of a crossing, replayed.
pub const CROSSING_LIST: &str = "list of a crossing";

/// A run of no events.
pub const NO_EVENTS: &str = "run of no events";

impl watch::Tally for Tally {
    type Case = Case;

    fn count(&mut self, case: &Case, answer: &Answer) {
        self.calls += 1;
        self.surveys += u64::from(case.call == Call::Survey);
        let (0, Some(first)) = (answer.number, answer.word(0)) else { return };
        self.traffic += Traffic::told(case, answer);
        match &case.call {
            Call::Step { event } => self.count_step(case, event, first, answer),
            Call::Run { .. } => self.count_run(case, answer),
            Call::Stopped => self.count_way(["stopped: no", "stopped: yes"][first as usize & 1]),
            Call::Survey => found(answer).for_each(|name| self.count_way(name)),
        }
    }

    fn count_refusal(&mut self, key: String) {
        self.refusals.add(key, 1);
    }
}

impl Tally {
    fn count_step(&mut self, case: &Case, event: &[u8], outcome: u64, answer: &Answer) {
        let n = size(&case.image).unwrap_or_default();
        self.events += 1;
        self.idle += u64::from(outcome == 0);
        self.fills.add(n, u64::from(outcome == 2));
        self.takes.add(n, u64::from(outcome == 3));
        self.count_way(OUTCOMES[outcome as usize]);
        self.count_way(way(&case.image, event, outcome, &answer.image));
        shown_by_step(case, event, answer).into_iter().for_each(|shown| self.count_way(shown));
        if self.reached {
            crossings(&case.image).into_iter().for_each(|crossing| self.count_way(crossing));
        }
    }

    fn count_run(&mut self, case: &Case, answer: &Answer) {
        let n = size(&case.image).unwrap_or_default();
        let word = |index| answer.word(index).unwrap_or_default();
        self.events += case.events() as u64;
        self.idle += word(6);
        self.fills.add(n, word(2));
        self.takes.add(n, word(3));
        shown_by_run(case, answer).into_iter().for_each(|shown| self.count_way(shown));
    }

    /// Counts a way.
    pub fn count_way(&mut self, way: &'static str) {
        self.ways.add(way, 1);
    }

    /// Adds another tally to this one.
    pub fn join(&mut self, other: Tally) {
        self.calls += other.calls;
        self.surveys += other.surveys;
        self.events += other.events;
        self.idle += other.idle;
        self.traffic += other.traffic;
        self.fills.join(other.fills);
        self.takes.join(other.takes);
        self.ways.join(other.ways);
        self.unsound.join(other.unsound);
        self.refusals.join(other.refusals);
    }
}

/// The way that an event took.
fn way(before: &[u8], event: &[u8], outcome: u64, after: &[u8]) -> &'static str {
    let (process, code) = (usize::from(event[0]), event[1]);
    let named = |name: String| *WAYS.iter().find(|way| **way == name).unwrap_or(&"a way without a name");
    match (code, outcome) {
        (_, 0) => named(format!("event {code} idle")),
        (7, _) => named(put_way(&before[at(process)..], before[1] == 1, &after[at(process)..])),
        _ => named(format!("event {code} possible")),
    }
}

/// The way that a put took: its stage, and what became of the envelope.
fn put_way(before: &[u8], full: bool, after: &[u8]) -> String {
    let stage = before[0];
    let (has, left) = (before[1] & HAVE != 0, after[1] & HAVE == 0);
    assert!(before[1] & NEWS != 0, "put without news is idle");
    match stage {
        3 | 4 | 8 | 9 => format!("put {stage}"),
        2 if has && !full => "put 2, to 3".to_string(),
        7 if has && full => "put 7, to 8".to_string(),
        _ if !has => format!("put {stage}, without"),
        _ if left => format!("put {stage}, left"),
        _ => format!("put {stage}, stayed"),
    }
}

/// The crossings in an image.
fn crossings(image: &[u8]) -> Vec<&'static str> {
    let full = usize::from(image[1] & 1);
    let crossing = [FULL, EMPTY].into_iter().filter(|request| crosses(image, *request));
    crossing.map(|request| CROSSINGS[2 * usize::from(request.bit) + full]).collect()
}
