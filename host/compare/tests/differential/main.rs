//! Step, run, stopped and survey: the proved library against the plain implementation, the same calls on both, and
//! everything that they show compared. A difference is shrunk and shown as bytes and as events. The test fails too if
//! too little was exercised: calls, events, outcomes, ways through a put, traffic, crossings, what surveys find, each
//! cause of a refusal.
//!
//! The work is the same each time. `RING_ROUNDS=20 cargo test --release --offline -p compare --test differential` does
//! it twenty times over with other numbers, from the seed that `RING_SEED` gives (1 if it gives none) upward.

mod buffers;
mod case;
mod crossings;
mod edits;
mod enough;
mod faults;
mod image;
mod lists;
mod pieces;
mod refusals;
mod reports;
mod rules;
mod runs;
mod shrink;
mod steps;
mod surveys;
mod sweep;
mod tally;
mod traffic;
mod unsound;

use compare::calls::{PLAIN, PROVED};
use compare::{number, watch};
use pieces::work;
use tally::Tally;
use traffic::{Traffic, SHOWN, SUMMED};

/// The watch over the two sides, and what a part of the work comes to.
type Watch = watch::Watch<Tally>;
type Work<T> = watch::Work<T, case::Case>;

#[test]
fn the_proved_library_agrees_with_the_plain_one() {
    let (rounds, seed) = (number("RING_ROUNDS", 1), number("RING_SEED", 1));
    for seed in seed..seed + rounds {
        let sides = [PROVED, PLAIN];
        let (tally, find) = work(sides, seed);
        if let Some(find) = find {
            panic!("they differ: seed {seed}, {}", find.shrunk(&sides));
        }
        enough::missing(&tally).assert_none(seed);
        let Tally { calls, surveys, events, idle, traffic: Traffic { requests, departures }, .. } = tally;
        println!("seed {seed}: {calls} calls, {surveys} of them surveys; {events} events, {idle} of them idle");
        println!("traffic: {requests} requests, {departures} departures");
        SHOWN.iter().chain([&SUMMED]).for_each(|shown| println!("{shown}: {}", tally.ways.of(shown)));
    }
}
