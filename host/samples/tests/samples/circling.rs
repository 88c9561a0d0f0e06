//! The samples with a crossing that end moving go round for ever: continued by rounds of events 2 to 7,
//! an image comes back, and from the one to the other nothing is filled, taken or ended, and the ring
//! is nowhere stopped.

use crate::support::*;
use samples::{all, Sample};
use std::collections::BTreeSet;

/// An image that comes back: after how many rounds it is there first, and after how many more again.
#[derive(Debug)]
struct Circle {
    first: usize,
    rounds: usize,
}

/// The entries 10, their mirror images and the crossings that end moving.
fn moving() -> Vec<Sample> {
    let crossed = ["entry-10-", "mirror-", "crossing-"];
    let of_them = |sample: &Sample| crossed.iter().any(|prefix| sample.name.starts_with(prefix));
    all().into_iter().filter(|sample| of_them(sample) && !ends_stopped(sample)).collect()
}

/// One round: whether all that happened is that something moved, with the ring nowhere stopped.
fn only_moves(image: &mut [u8]) -> bool {
    let mut kinds = Vec::new();
    let mut stops = stopped(image);
    for process in 0..u64::from(image[0]) {
        for code in 2..8 {
            kinds.push(step(image, &guide::event(process, code, 0)));
            stops |= stopped(image);
        }
    }
    !stops && kinds.iter().all(|kind| *kind <= 1) && kinds.contains(&1)
}

/// The circle that rounds lead to, if only moves are on it.
fn circle(mut image: Vec<u8>) -> Option<Circle> {
    let mut images = Vec::new();
    let mut moves = Vec::new();
    loop {
        if let Some(first) = images.iter().position(|earlier| *earlier == image) {
            let rounds = images.len() - first;
            return moves[first..].iter().all(|only| *only).then_some(Circle { first, rounds });
        }
        images.push(image.clone());
        moves.push(only_moves(&mut image));
    }
}

/// One round leads back to the same image. Only lists without rounds may need one to get there.
#[test]
fn every_one_that_ends_moving_goes_round() {
    let bare = ["entry-10-n2", "entry-10-n3", "mirror-n2", "mirror-n3"];
    let moving = moving();
    assert!(bare.iter().all(|name| moving.iter().any(|sample| sample.name == *name)));
    for sample in moving {
        let circle = circle(last_image(&sample)).unwrap_or_else(|| panic!("{} does not go round", sample.name));
        let most = usize::from(bare.contains(&&sample.name[..]));
        assert!(circle.rounds == 1 && circle.first <= most, "{}: {circle:?}", sample.name);
    }
}

/// All images that events 2 to 7 lead to, in whatever order, if no event on the way is a fill, a take,
/// a sent or a got.
fn reachable(image: Vec<u8>) -> Option<BTreeSet<Vec<u8>>> {
    let events = |n: u64| (0..n).flat_map(|process| (2..8).map(move |code| guide::event(process, code, 0)));
    let mut images = BTreeSet::from([image.clone()]);
    let mut waiting = vec![image];
    while let Some(image) = waiting.pop() {
        for event in events(image[0].into()) {
            let mut next = image.clone();
            if step(&mut next, &event) > 1 {
                return None;
            }
            if images.insert(next.clone()) {
                waiting.push(next);
            }
        }
    }
    Some(images)
}

/// Rounds are not to blame: no order of events 2 to 7 fills, takes or ends anything, or stops the ring.
#[test]
fn no_order_of_events_stops_one_that_ends_moving() {
    for sample in moving() {
        let images = reachable(last_image(&sample)).unwrap_or_else(|| panic!("{} does more", sample.name));
        println!("{}: {} images", sample.name, images.len());
        assert!(images.iter().all(|image| !stopped(image)), "{}", sample.name);
    }
}
