//! The planted faults: the same comparison with a plain implementation that is wrong in one thing must report it, and
//! shrink what it reports to a case that can be read: at most 3 processes, or as many as the fault needs, and at most 3
//! events, equal ones in a row taken for one. The faults of loads, which these calls can't show, are found by the tests
//! of tapes.

use crate::case::{Call, Case};
use crate::pieces::work;
use crate::traffic::sums;
use crate::Watch;
use compare::calls::{plain, PROVED};
use compare::case::Case as _;
use guide::Random;
use plain::FAULTS;

/// The events of a case, equal ones in a row taken for one.
fn distinct(case: &Case) -> usize {
    match &case.call {
        Call::Run { tape, .. } => tape.events().chunk_by(|a, b| a == b).count(),
        _ => case.events(),
    }
}

#[test]
fn every_planted_fault_is_found_and_shrunk() {
    let faulty = [
        plain::<1>(),
        plain::<2>(),
        plain::<3>(),
        plain::<4>(),
        plain::<5>(),
        plain::<6>(),
        plain::<7>(),
        plain::<8>(),
        plain::<9>(),
        plain::<10>(),
        plain::<11>(),
        plain::<12>(),
        plain::<13>(),
        plain::<14>(),
        plain::<18>(),
        plain::<19>(),
        plain::<20>(),
        plain::<21>(),
        plain::<22>(),
        plain::<23>(),
        plain::<24>(),
        plain::<25>(),
        plain::<26>(),
        plain::<27>(),
    ];
    let names: Vec<&str> = FAULTS.into_iter().filter(|name| !name.contains("load")).collect();
    assert_eq!(names.len(), faulty.len(), "every planted fault has its turn");
    for (faulty, name) in faulty.into_iter().zip(names) {
        let sides = [PROVED, faulty];
        let (_, find) = work(sides, 1);
        let find = find.unwrap_or_else(|| panic!("not found: {name}")).shrunk(&sides);
        println!("found: {name}\n{find}");
        let case = &find.found.case;
        let needed = [37, 65].into_iter().find(|needed| name.contains(&format!("{needed} processes")));
        let most = needed.unwrap_or(3);
        assert!(case.image.first().is_none_or(|n| *n <= most), "not shrunk to few processes: {name}\n{find}");
        assert!(distinct(case) <= 3, "not shrunk to few events: {name}\n{find}");
    }
}

/// Where both sides are wrong alike, a run's traffic is still held against its steps.
#[test]
fn traffic_that_is_no_sum_is_found_on_equal_sides() {
    let mut watch = Watch::new([plain::<27>(), plain::<27>()]);
    let found = sums(&mut watch, 3, &mut Random::new(1)).expect_err("fault 27 shows here");
    assert!(found.to_string().contains("step by step"), "{found}");
}
