//! Fresh ring, writer, reader and load: the proved calls against the plain implementation, and tapes, loads among them,
//! that read back as their events and are written back as the same bytes. `RING_SEED` gives another seed than 1.

mod case;
mod known;
mod loads;
mod shrink;
mod tally;
mod work;

use compare::calls::{plain, Calls, PLAIN, PROVED};
use compare::case::Case as _;
use compare::{number, watch};
use plain::FAULTS;
use work::work;

/// The watch over the two sides, and what a part of the work comes to.
type Watch = watch::Watch<tally::Tally>;
type Work<T> = watch::Work<T, case::Case>;

#[test]
fn the_proved_calls_agree_with_the_plain_ones() {
    let seed = number("RING_SEED", 1);
    let sides = [PROVED, PLAIN];
    let (tally, found) = work(sides, seed);
    if let Some(found) = found {
        panic!("they differ: seed {seed}, {}", found.shrunk(&sides));
    }
    tally.missing().assert_none(seed);
    println!("seed {seed}: {} calls, {} events written, read and drawn", tally.calls, tally.events);
}

#[test]
fn every_planted_fault_that_these_calls_show_is_found() {
    let faulty: [(usize, Calls); 9] = [
        (6, plain::<6>()),
        (10, plain::<10>()),
        (12, plain::<12>()),
        (13, plain::<13>()),
        (15, plain::<15>()),
        (16, plain::<16>()),
        (17, plain::<17>()),
        (18, plain::<18>()),
        (19, plain::<19>()),
    ];
    let of_loads = FAULTS.iter().zip(1..).filter(|(name, _)| name.contains("load")).map(|(_, fault)| fault);
    for of_load in of_loads {
        assert!(faulty.iter().any(|(fault, _)| *fault == of_load), "every fault of loads has its turn");
    }
    for (fault, faulty) in faulty {
        let (name, sides) = (FAULTS[fault - 1], [PROVED, faulty]);
        let (_, found) = work(sides, 1);
        let found = found.unwrap_or_else(|| panic!("not found: {name}")).shrunk(&sides);
        println!("found: {name}\n{found}");
        assert!(found.case.events() <= 64, "not shrunk: {name}\n{found}");
    }
}
