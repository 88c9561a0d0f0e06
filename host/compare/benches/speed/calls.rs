//! Steps, stopped and survey, at 2, 8 and 64 processes.
//!
//! Steps go through a long guided list on one image that changes as they go. Stopped and survey are
//! asked about the same images, moving and stopped ones by turns, all of them sound.

use crate::same::same;
use crate::table::{Table, Unit};
use crate::timing::{by_turns, Effort, Spent};
use compare::calls::{Calls, Look};
use compare::used::used_image;
use guide::Random;
use std::hint::black_box;

const SIZES: [u64; 3] = [2, 8, 64];
const STEPS: usize = 65_536;
const IMAGES: usize = 64;

/// A call that looks at an image: its name, a remark on its lines, and the call of a side.
struct Kind {
    name: &'static str,
    remark: &'static str,
    of: fn(&Calls) -> Look,
}

const LOOKS: [Kind; 2] = [
    Kind { name: "stopped", remark: "half of the images stopped", of: |side| side.stopped },
    Kind { name: "survey", remark: "the same images, all sound", of: |side| side.survey },
];

pub fn measure(table: &mut Table, effort: Effort) {
    for n in SIZES {
        let name = format!("step {n}");
        if table.wants(&name) {
            measure_step(table, effort, n, &name);
        }
    }
    for kind in LOOKS {
        for n in SIZES {
            let name = format!("{} {n}", kind.name);
            if table.wants(&name) {
                measure_look(table, effort, n, &name, &kind);
            }
        }
    }
}

fn measure_step(table: &mut Table, effort: Effort, n: u64, name: &str) {
    let mut random = Random::new(n);
    let start = used_image(n, &mut random);
    let list = guide::guided(&start, STEPS, &mut random);
    same("steps", |side| all_steps_seen(side, &start, &list));
    let mut image = start.clone();
    let mut result = [0; 80];
    let taken = by_turns(effort.rounds, effort.least, |side, spent: &mut Spent| {
        image.copy_from_slice(&start);
        spent.on(STEPS, || {
            for event in list.chunks_exact(8) {
                black_box((side.step)(black_box(&mut image), black_box(event), black_box(&mut result)));
            }
        });
    });
    table.line(name, Unit::Call, taken, "a guided list");
}

/// Every answer, and a sum of the images in between.
fn all_steps_seen(side: &Calls, start: &[u8], list: &[u8]) -> (Vec<u8>, Vec<u8>, u64) {
    let mut image = start.to_vec();
    let mut answers = Vec::new();
    let mut images = 0u64;
    for event in list.chunks_exact(8) {
        let mut result = [0xA5; 80];
        answers.push((side.step)(&mut image, event, &mut result) as u8);
        answers.extend(result);
        for byte in &image {
            images = images.wrapping_mul(31).wrapping_add(u64::from(*byte));
        }
    }
    (image, answers, images)
}

fn measure_look(table: &mut Table, effort: Effort, n: u64, name: &str, kind: &Kind) {
    let images = moving_and_stopped(n);
    for image in &images {
        same(name, |side| {
            let mut result = [0xA5; 80];
            ((kind.of)(side)(image, &mut result), result)
        });
    }
    let mut result = [0; 80];
    let taken = by_turns(effort.rounds, effort.least, |side, spent: &mut Spent| {
        let call = (kind.of)(side);
        spent.on(images.len(), || {
            for image in &images {
                black_box(call(black_box(image), black_box(&mut result)));
            }
        });
    });
    table.line(name, Unit::Call, taken, kind.remark);
}

/// Moving images, met by a guided list, and stopped ones, by turns.
fn moving_and_stopped(n: u64) -> Vec<Vec<u8>> {
    let mut random = Random::new(n);
    let mut image = used_image(n, &mut random);
    let mut images = Vec::new();
    while images.len() < IMAGES {
        let event = guide::guided_event(&image, 0, &mut random);
        plain::ring_step::<0>(&mut image, &event, &mut [0; 80]);
        if !stopped(&image) {
            images.push(image.clone());
            images.push(stopped_image(n, &mut random));
        }
    }
    images
}

/// The image of a ring in which some processes have one and the same wish, after all else that can
/// happen has happened.
fn stopped_image(n: u64, random: &mut Random) -> Vec<u8> {
    let mut image = guide::fresh(n, random.below(n));
    let code = random.below(2);
    for process in (0..n).filter(|_| random.chance(50)).collect::<Vec<_>>() {
        perform(&mut image, process, code);
    }
    for _ in 0..10 * n {
        if stopped(&image) {
            break;
        }
        for code in 2..8 {
            (0..n).for_each(|process| perform(&mut image, process, code));
        }
    }
    assert!(stopped(&image), "one wish alone lets the ring stop");
    image
}

fn perform(image: &mut [u8], process: u64, code: u64) {
    plain::ring_step::<0>(image, &guide::event(process, code, 0), &mut [0; 80]);
}

fn stopped(image: &[u8]) -> bool {
    let mut result = [0; 80];
    plain::ring_stopped::<0>(image, &mut result) == 0 && result[0] == 1
}
