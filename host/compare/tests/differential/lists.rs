//! Lists of calls on one image: step, run and stopped in any order, refused ones in between.

use crate::case::Case;
use crate::image::fresh;
use crate::runs::records;
use crate::steps::{likely, longer};
use crate::sweep::{swept, Wishes};
use crate::{Watch, Work};
use compare::damage::{any_event, event_causes, tape_causes, EventCause, TapeCause};
use compare::tape::{Tape, SLOTS};
use guide::Random;

/// What goes wrong in between.
struct Wrong {
    events: Vec<EventCause>,
    tapes: Vec<TapeCause>,
}

/// Lists from a fresh ring.
pub fn mixed(watch: &mut Watch, n: usize, random: &mut Random) -> Work<()> {
    watch.tally.reached = true;
    let wrong = Wrong { events: event_causes(), tapes: tape_causes() };
    for _ in 0..4 {
        let mut image = longer(fresh(n, random.index(n)), random);
        for _ in 0..150 {
            let case = any_call(&image, n, &wrong, random);
            let answer = watch.call(&case)?;
            assert!(answer.number == 0 || answer.image == image, "a refused call leaves the image");
            image = answer.image;
        }
    }
    Ok(())
}

/// Any call on this image.
fn any_call(image: &[u8], n: usize, wrong: &Wrong, random: &mut Random) -> Case {
    let image = image.to_vec();
    match random.index(10) {
        0..=3 => {
            let event = likely(&image, random);
            Case::step(image, &event, 80)
        }
        4 => Case::step(image, &any_event(random, n), random.pick(&[79, 80, 81])),
        5 => {
            let event = wrong.events[random.index(wrong.events.len())].event(random, n);
            Case::step(image, &event, 80)
        }
        6 => Case::stopped(image, random.pick(&[0, 79, 80, 96])),
        7 => {
            let (tape, _) = wrong.tapes[random.index(wrong.tapes.len())].tape(random, n);
            Case::run(image, tape, 12 * 5 * SLOTS, 80)
        }
        _ => any_run(image, random),
    }
}

/// A run on this image, with a ledger that is roomy, just enough, or too short.
fn any_run(image: Vec<u8>, random: &mut Random) -> Case {
    let many = random.within(0, 200);
    let wishes = random.pick(&[Wishes::Puts(50), Wishes::Puts(90), Wishes::Puts(10), Wishes::Seldom]);
    let list = swept(&image, many, wishes, random);
    let tape = Tape::of(&list);
    let room = 12 * records(&image, &tape);
    let ledger = random.pick(&[12 * many, room, room + 1, room.saturating_sub(1), room.saturating_sub(12)]);
    Case::run(image, tape, ledger, 80)
}
