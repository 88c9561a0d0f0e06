//! Document 01's entries that ringrun can show, and the mirror image of entry 10.

use crate::crossing_lists::{ENTRY_10, MIRROR};
use crate::play::Play;
use crate::Sample;

/// Entry 1's events after its put.
const AFTER_THE_PUT: &str = "1.3 1.7 0.6 0.7 1.4 1.7 1.2 1.3 1.7";
const AND_THE_GET: &str = "0.1 0.3 0.7 1.5 1.7 0.4 0.7 0.2 0.3 0.7";

pub fn samples() -> Vec<Sample> {
    let put = || Play::fresh(2, 0).put(1, 7);
    let mut samples = vec![
        Sample::new("entry-01", put().then(AFTER_THE_PUT).then(AND_THE_GET).input()),
        Sample::new("entry-03", put().then(AFTER_THE_PUT).input()),
        Sample::new("entry-04", Play::fresh(2, 0).then("1.7").input()),
        Sample::new("entry-05", put().put(1, 8).then(AFTER_THE_PUT).input()),
        Sample::new("entry-06", put().input()),
        Sample::new("entry-08-63-events", Play::fresh(2, 0).guided(63, 8).input()),
        Sample::new("entry-08-64-events", Play::fresh(2, 0).guided(64, 8).input()),
    ];
    ENTRY_10.iter().for_each(|known| samples.extend(entry_10(known.n, known.list)));
    MIRROR.iter().for_each(|known| samples.extend(mirror(known.n, known.list)));
    samples
}

/// The put that ended alone; the envelope on its rounds; a get that takes the message, after which the
/// ring stops. For 3 also a get elsewhere: then the next put ends alone too.
fn entry_10(n: u64, list: &str) -> Vec<Sample> {
    let alone = Play::fresh(n, 0).then(list);
    let named = |what: &str, play: Play| Sample::new(format!("entry-10-n{n}{what}"), play.input());
    let mut samples = vec![
        named("", alone.clone()),
        named("-rounds", alone.clone().rounds()),
        named("-get", alone.clone().then("1.1").rounds()),
    ];
    if n == 3 {
        samples.push(named("-again", alone.then("0.1").rounds().then("1.0").rounds()));
    }
    samples
}

/// The empty envelope under way with everybody idle; on its rounds; a put that clears the marker, after
/// which the ring stops with the put still waiting; a get too, with which both end and the ring stops.
/// For 3 also a put elsewhere: then the envelope is under way again after the get.
fn mirror(n: u64, list: &str) -> Vec<Sample> {
    let idle = Play::fresh(n, 0).then(list);
    let put = idle.clone().then("0.0").rounds();
    let named = |what: &str, play: Play| Sample::new(format!("mirror-n{n}{what}"), play.input());
    let mut samples = vec![
        named("", idle.clone()),
        named("-rounds", idle.clone().rounds()),
        named("-put", put.clone()),
        named("-put-get", put.then("1.1").rounds()),
    ];
    if n == 3 {
        samples.push(named("-again", idle.then("1.0").rounds().then("0.1").rounds()));
    }
    samples
}
