//! Calls for callgrind to count: `count SIDE KIND N` makes a call of some thousand events, or some thousand calls, of
//! one kind on one side, each through `counted_run`, `counted_load`, `counted_step`, `counted_stopped` or
//! `counted_survey`. `benches/count` has it run under callgrind and prints what it counted, for an event or a call.

use compare::calls::{Calls, PLAIN, PROVED};
use compare::used::used_image;
use guide::Random;
use std::hint::black_box;

/// As many as `benches/count` divides by.
const CALLS: usize = 4_096;
const BLOCKS: usize = 64;

fn main() {
    let words: Vec<String> = std::env::args().skip(1).collect();
    let [side, kind, n] = &words[..] else { panic!("count SIDE KIND N") };
    let side = match side.as_str() {
        "rattle" => &PROVED,
        "plain" => &PLAIN,
        _ => panic!("no side {side}"),
    };
    let n: u64 = n.parse().expect("a number of processes");
    let mut random = Random::new(n);
    let mut image = used_image(n, &mut random);
    let mut result = [0; 80];
    match kind.as_str() {
        "guided" | "uniform" => {
            let events = 63 * BLOCKS;
            let list = match kind.as_str() {
                "guided" => guide::guided(&image, events, &mut random),
                _ => guide::uniform(n, events, &mut random),
            };
            let (tape, mut ledger) = (guide::tape(n, &list), vec![0; 12 * events]);
            counted_run(side, &mut image, &tape, &mut ledger, &mut result);
        }
        "load" => {
            let mut tape = vec![0; 512 * BLOCKS];
            counted_load(side, n, 63 * BLOCKS as u64, &mut tape, &mut result);
        }
        "step" => {
            let list = guide::guided(&image, CALLS, &mut random);
            list.chunks_exact(8).for_each(|event| counted_step(side, &mut image, event, &mut result));
        }
        "stopped" => (0..CALLS).for_each(|_| counted_stopped(side, &image, &mut result)),
        "survey" => (0..CALLS).for_each(|_| counted_survey(side, &image, &mut result)),
        _ => panic!("no kind {kind}"),
    }
}

#[no_mangle]
#[inline(never)]
fn counted_run(side: &Calls, image: &mut [u8], tape: &[u8], ledger: &mut [u8], result: &mut [u8]) {
    assert_eq!((black_box(side).run)(image, tape, ledger, result), 0);
}

#[no_mangle]
#[inline(never)]
fn counted_load(side: &Calls, n: u64, events: u64, tape: &mut [u8], result: &mut [u8]) {
    assert_eq!((black_box(side).load)(n, 1, events, tape, result), 0);
}

#[no_mangle]
#[inline(never)]
fn counted_step(side: &Calls, image: &mut [u8], event: &[u8], result: &mut [u8]) {
    assert_eq!((black_box(side).step)(image, event, result), 0);
}

#[no_mangle]
#[inline(never)]
fn counted_stopped(side: &Calls, image: &[u8], result: &mut [u8]) {
    assert_eq!((black_box(side).stopped)(image, result), 0);
}

#[no_mangle]
#[inline(never)]
fn counted_survey(side: &Calls, image: &[u8], result: &mut [u8]) {
    assert_eq!((black_box(side).survey)(image, result), 0);
}
