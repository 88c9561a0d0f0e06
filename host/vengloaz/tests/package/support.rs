//! The story that most of these tests tell: entry 1, on a ring of two with home 0.

use vengloaz::{fresh, run, write, Event};

/// The events of entry 1.
pub const ENTRY: &str = "1.0(7) 1.3 1.7 0.6 0.7 1.4 1.7 1.2 1.3 1.7 0.1 0.3 0.7 1.5 1.7 0.4 0.7 0.2 0.3 0.7";

/// The events of a list.
pub fn events(list: &str) -> Vec<Event> {
    list.split_whitespace().map(|word| word.parse().expect("it is an event")).collect()
}

/// The fresh ring of two, home 0.
pub fn ring() -> Vec<u8> {
    fresh(2, 0).expect("there is such a ring")
}

/// The tape of events for a ring of two.
pub fn tape(events: &[Event]) -> Vec<u8> {
    write(2, events).expect("these are events of a ring of two")
}

/// The ledger of a list on that ring.
pub fn ledger(list: &str) -> Vec<u8> {
    let events = events(list);
    let mut ledger = vec![0; 12 * events.len()];
    let counts = run(&mut ring(), &tape(&events), &mut ledger).expect("the list isn't refused").counts;
    ledger.truncate(counts.ledger_bytes());
    ledger
}
