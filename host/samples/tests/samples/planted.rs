//! Every planted fault that a ringrun could have shows in some sample.

use plain::report_with;
use samples::all;

/// The samples whose text differs with a fault.
fn shown<const FAULT: u8>() -> Vec<String> {
    let samples = all().into_iter();
    let differing = samples.filter(|sample| report_with::<FAULT>(&sample.input) != report_with::<0>(&sample.input));
    differing.map(|sample| sample.name).collect()
}

/// Left out are those that no ringrun can show: without 4's marker the next forward, which still has
/// the asked bit, sets it all the same; the tapes are too short for 8; from a fresh ring no image is
/// unsound as in 9; no result slice is printed (10); the ledger has room for all (11); a ringrun
/// makes no loads (15 to 17); of a ledger without records no byte is printed (20); a ringrun makes no
/// survey (21 to 23): of its walks it has the verdicts alone; and it prints no traffic (24 to 27).
#[test]
fn every_planted_fault_shows() {
    let found = [
        (1, shown::<1>()),
        (2, shown::<2>()),
        (3, shown::<3>()),
        (5, shown::<5>()),
        (6, shown::<6>()),
        (7, shown::<7>()),
        (12, shown::<12>()),
        (13, shown::<13>()),
        (14, shown::<14>()),
        (18, shown::<18>()),
        (19, shown::<19>()),
    ];
    for (fault, samples) in found {
        assert!(!samples.is_empty(), "planted fault {fault} shows nowhere");
    }
}

/// The lists for a rule show that it isn't kept.
#[test]
fn lists_for_a_rule_show_its_fault() {
    let both = ["rule-absorbed-n2", "rule-absorbed-n3"].map(String::from);
    assert!(both.iter().all(|name| shown::<2>().contains(name)));
    assert!(shown::<3>().contains(&"rule-clear-then-forward-n2".into()));
    assert!(shown::<5>().contains(&"rule-mark-once-n3".into()));
}

/// Tapes of no events, and a block that has none.
#[test]
fn samples_of_no_events_show_its_faults() {
    let none = [
        "load-n4-home-0-seed-1-events-0",
        "size-n-alone",
        "size-n-alone-of-64",
        "size-n-and-home",
        "size-n-and-home-of-64",
    ];
    let mut refused = shown::<18>();
    refused.sort();
    assert_eq!(refused, none);
    assert!(shown::<19>().contains(&"refused-8-count-0-of-zeros".into()));
}
