//! How much must be exercised, at the least, for the comparison to mean anything.

use crate::refusals;
use crate::surveys::{ANY_BYTES, BIT_TURNED, FOUND};
use crate::tally::{Tally, CROSSINGS, CROSSING_LIST, NO_EVENTS, OUTCOMES, WAYS};
use crate::traffic::{SHOWN, SUMMED};
use crate::unsound::image_causes;
use compare::counts::Missing;
use compare::watch::key;

/// The least calls.
const CALLS: u64 = 200_000;
/// The least surveys, times that they find each thing, bits turned for them, and images of any bytes.
const SURVEYS: u64 = 500_000;
const FINDING: u64 = 1_000;
const BITS: u64 = 57_600;
const IMAGES: u64 = 12_600;
/// The least events.
const EVENTS: u64 = 20_000_000;
/// The least fills, and takes, for each of some N.
const FILLS: u64 = 5_000;
/// The least times that each outcome comes at a step.
const OUTCOME: u64 = 2_000;
/// The least times that a step meets each kind of crossing on a ring's way.
const CROSSING: u64 = 1_000;
/// The least lists of crossings that are replayed.
const LISTS: u64 = 120;
/// The least requests, and departures; times that each thing is shown of them; and runs held against their steps.
const TRAFFIC: u64 = 1_000_000;
const SHOWING: u64 = 440;
const SUMS: u64 = 240;
/// The least runs of no events.
const RUNS_OF_NOTHING: u64 = 1_900;
/// The least times that a step takes each way.
const WAY: u64 = 60;
/// The least refusals by each cause.
const CAUSE: u64 = 60;

/// What was exercised too little.
pub fn missing(tally: &Tally) -> Missing {
    let mut missing = Missing::default();
    missing.least("calls", tally.calls, CALLS);
    missing.least("events", tally.events, EVENTS);
    missing.least("events that are not idle", tally.events - tally.idle, tally.events.div_ceil(3));
    for n in [2, 8, 64] {
        missing.least(&format!("fills at N {n}"), tally.fills.of(&n), FILLS);
        missing.least(&format!("takes at N {n}"), tally.takes.of(&n), FILLS);
    }
    for n in 2..=64 {
        missing.least(&format!("fills at N {n}"), tally.fills.of(&n), 1_000);
    }
    for (ways, due) in [(&OUTCOMES[..], OUTCOME), (&CROSSINGS[..], CROSSING), (&WAYS[..], WAY)] {
        ways.iter().for_each(|way| missing.least(way, tally.ways.of(way), due));
    }
    missing.least("requests", tally.traffic.requests, TRAFFIC);
    missing.least("departures", tally.traffic.departures, TRAFFIC);
    SHOWN.iter().for_each(|shown| missing.least(shown, tally.ways.of(shown), SHOWING));
    missing.least(SUMMED, tally.ways.of(&SUMMED), SUMS);
    missing.least(CROSSING_LIST, tally.ways.of(&CROSSING_LIST), LISTS);
    missing.least(NO_EVENTS, tally.ways.of(&NO_EVENTS), RUNS_OF_NOTHING);
    missing.least("surveys", tally.surveys, SURVEYS);
    FOUND.iter().for_each(|found| missing.least(found, tally.ways.of(found), FINDING));
    missing.least(BIT_TURNED, tally.ways.of(&BIT_TURNED), BITS);
    missing.least(ANY_BYTES, tally.ways.of(&ANY_BYTES), IMAGES);
    for cause in image_causes().iter().filter(|cause| !cause.refuses_survey()) {
        missing.least(&format!("survey: {}", cause.name), tally.unsound.of(&cause.name), CAUSE);
    }
    for key in refusals::keys() {
        missing.least(&key, tally.refusals.of(&key), CAUSE);
    }
    let too_long = key("run", 6, "too long");
    missing.least(&too_long, tally.refusals.of(&too_long), 1);
    missing
}
