//! Every list of requests that cross the envelope, by the proved step and by the plain one: nowhere idle, and ending in
//! the crossing and in the state that an exhaustive search found. All messages are 0: the search had none.

use compare::calls::{Calls, PLAIN, PROVED};
use compare::link::{arriving, asked_itself, crosses, left, on_link, stage};
use compare::words::in_words;
use samples::crossing_lists::{Crossing, Ended, Way, CROSSINGS, EMPTY, ENTRY_10, FULL, MIRROR, OTHER_HOMES};
use std::collections::BTreeSet;

static SIDES: [&Calls; 2] = [&PROVED, &PLAIN];

/// The image after some events from the fresh ring with home 0, none of them refused or idle.
fn after(side: &Calls, n: u64, events: &[[u8; 8]]) -> Vec<u8> {
    let mut image = guide::fresh(n, 0);
    for event in events {
        let mut result = [0; 80];
        assert_eq!((side.step)(&mut image, event, &mut result), 0, "{}: {events:?}", side.name);
        assert_ne!(result[0], 0, "{}: an idle event: {events:?}", side.name);
    }
    image
}

/// Whether an image is stopped.
fn stopped(side: &Calls, image: &[u8]) -> bool {
    let mut result = [0; 80];
    assert_eq!((side.stopped)(image, &mut result), 0, "{}", side.name);
    result[0] == 1
}

/// The events of a list, with messages of 0.
fn events(list: &str) -> Vec<[u8; 8]> {
    guide::read_list(list).into_iter().map(|(process, code)| guide::event(process, code, 0)).collect()
}

/// The state that an image holds.
fn state(image: &[u8]) -> String {
    in_words(image, usize::from(image[0])).join("; ")
}

/// Whether the crossing began or stands in the way named.
fn way_right(crossing: &Crossing, before: &[u8], image: &[u8], last: [u8; 8]) -> bool {
    let Crossing { request, .. } = *crossing;
    let process = arriving(image).expect(crossing.list);
    let wishing = if request == FULL { 7 } else { 2 };
    let put_of = |process: usize| (usize::from(last[0]), last[1]) == (process, 7);
    match crossing.way {
        Way::Shortest(known) => state(image) == known,
        Way::Leaves => put_of(left(image, process)) && arriving(before).is_none() && on_link(before, process, request),
        Way::Asks => put_of(process) && arriving(before) == Some(process) && !on_link(before, process, request),
        Way::Old => !asked_itself(image, process, request),
        Way::OwnWish => stage(image, process) == wishing,
        Way::NotOwnWish => stage(image, process) != wishing,
        Way::Both => crosses(image, FULL) && crosses(image, EMPTY),
    }
}

fn check(side: &Calls, crossing: &Crossing) {
    let Crossing { n, request, envelope, list, .. } = *crossing;
    let events = events(list);
    let (last, earlier) = events.split_last().expect("a list has events");
    let [before, image] = [after(side, n, earlier), after(side, n, &events)];
    assert!(crosses(&image, request), "{}: {list}", side.name);
    assert_eq!(image[1], envelope.header, "{}: {list}", side.name);
    assert!(way_right(crossing, &before, &image, *last), "{}: {list}: {}", side.name, state(&image));
}

#[test]
fn every_list_ends_in_its_crossing() {
    for side in SIDES {
        CROSSINGS.iter().for_each(|crossing| check(side, crossing));
    }
}

#[test]
fn every_kind_is_there_for_two_and_for_three() {
    for n in [2, 3] {
        for request in [FULL, EMPTY] {
            for envelope in [FULL, EMPTY] {
                let like = |c: &&Crossing| (c.n, c.request, c.envelope) == (n, request, envelope);
                let has = |way: &dyn Fn(Way) -> bool| CROSSINGS.iter().filter(like).any(|crossing| way(crossing.way));
                assert!(has(&|way| matches!(way, Way::Shortest(_))));
                for way in [Way::Leaves, Way::Asks, Way::Old, Way::OwnWish, Way::NotOwnWish] {
                    assert!(has(&|other| other == way));
                }
            }
        }
    }
}

/// 33 of them are samples of crossings (`host/samples/src/crossings.rs`).
#[test]
fn there_are_40_lists() {
    let crossing: BTreeSet<_> = CROSSINGS.iter().map(|crossing| (crossing.n, crossing.list)).collect();
    let further = ENTRY_10.iter().chain(&MIRROR).chain(&OTHER_HOMES);
    let further: BTreeSet<_> = further.map(|known| (known.n, known.list)).collect();
    assert_eq!((crossing.len(), further.len(), crossing.union(&further).count()), (33, 7, 40));
}

/// The image at the end of a list, which must be in the state known.
fn ended(side: &Calls, known: &Ended) -> Vec<u8> {
    let image = after(side, known.n, &events(known.list));
    assert_eq!(state(&image), known.state, "{}: {}", side.name, known.list);
    image
}

/// Lists that end in their states, none of which is stopped.
fn end_moving(lists: &[Ended]) {
    for side in SIDES {
        lists.iter().for_each(|known| assert!(!stopped(side, &ended(side, known)), "{}: {}", side.name, known.list));
    }
}

/// A put that ended alone: full, its marker on, nobody receives, and the ring does not stop.
#[test]
fn a_put_ends_alone() {
    end_moving(&ENTRY_10);
}

/// The like with empty: the empty marker on with no sender, everybody idle, and the ring does not stop.
#[test]
fn an_empty_envelope_goes_round() {
    end_moving(&MIRROR);
}

/// The fresh ring with another home, byte for byte.
#[test]
fn the_envelope_comes_to_rest_at_every_home() {
    for side in SIDES {
        for known in &OTHER_HOMES {
            let image = ended(side, known);
            let fresh = |home: &u64| guide::fresh(known.n, *home) == image;
            assert!((1..known.n).filter(fresh).count() == 1 && stopped(side, &image), "{}", known.list);
        }
    }
}
