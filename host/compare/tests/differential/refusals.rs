//! Calls that are refused: each cause alone, and several at once, of which the first in order decides.

use crate::case::Case;
use crate::image::sound;
use crate::runs::records;
use crate::steps::longer;
use crate::unsound::{image_causes, ImageCause};
use crate::{Watch, Work};
use compare::damage::{any_event, any_tape, event_causes, length_causes, tape_causes, EventCause};
use compare::tape::{Event, Seal, Tape, SLOTS};
use compare::watch::key;
use guide::{guided, Random};

/// Images that are refused 3 or 4, in each of the three calls, wrong at the first, some middle and the last process.
pub fn images(watch: &mut Watch, n: usize, random: &mut Random) -> Work<()> {
    for cause in image_causes() {
        for process in [0, random.index(n), n - 1] {
            for call in 0..3 {
                let image = refused_image(&cause, n, process, random);
                let case = match call {
                    0 => Case::step(image, &any_event(random, n), 80),
                    1 => Case::run(image, short_tape(random, n), 12 * SLOTS, 80),
                    _ => Case::stopped(image, 80),
                };
                watch.refused(&case, cause.number, 0, &cause.name)?;
            }
        }
    }
    Ok(())
}

/// Events and tapes that are refused 5 to 9.
pub fn inputs(watch: &mut Watch, n: usize, random: &mut Random) -> Work<()> {
    for cause in length_causes().iter().chain(&event_causes()) {
        for _ in 0..3 {
            let event = cause.event(random, n);
            watch.refused(&Case::step(sound(random, n), &event, 80), 5, 0, &cause.name)?;
        }
    }
    for cause in tape_causes() {
        let (tape, place) = cause.tape(random, n);
        let image = longer(sound(random, n), random);
        watch.refused(&Case::run(image, tape, 12 * SLOTS, 80), cause.number, place, &cause.name)?;
    }
    Ok(())
}

/// Ledgers and result slices that are refused 10: a byte short, a record short, none at all; every result under 80.
pub fn outputs(watch: &mut Watch, n: usize, random: &mut Random) -> Work<()> {
    for _ in 0..4 {
        let (image, tape, room) = run_with_records(random, n);
        let lengths = [
            ("ledger a byte short", room - 1),
            ("ledger a record short", room - 12),
            ("ledger of no bytes", 0),
            ("ledger of 11 bytes", 11),
        ];
        for (cause, length) in lengths {
            watch.refused(&Case::run(image.clone(), tape.clone(), length, 80), 10, 0, cause)?;
        }
    }
    for result in 0..80 {
        let (image, tape, room) = run_with_records(random, n);
        watch.refused(&Case::run(image, tape, room, result), 10, 0, RESULT_SHORT)?;
        watch.refused(&Case::step(sound(random, n), &any_event(random, n), result), 10, 0, RESULT_SHORT)?;
        watch.refused(&Case::stopped(sound(random, n), result), 10, 0, RESULT_SHORT)?;
        watch.refused(&Case::survey(sound(random, n), result), 10, 0, RESULT_SHORT)?;
    }
    Ok(())
}

/// The cause of 10 that all calls have.
pub const RESULT_SHORT: &str = "result under 80 bytes";

/// Several things wrong at once.
pub fn orders(watch: &mut Watch, n: usize, random: &mut Random) -> Work<()> {
    let images = image_causes();
    let events: Vec<EventCause> = length_causes().into_iter().chain(event_causes()).collect();
    for _ in 0..100 {
        let wrong_image = random.one_in(4).then(|| &images[random.index(images.len())]);
        let wrong_event = random.flip().then(|| &events[random.index(events.len())]);
        let result = random.pick(&[0, 79, 80, 100]);
        let event = match wrong_event {
            Some(cause) => cause.event(random, n),
            None => any_event(random, n).to_vec(),
        };
        let case = Case::step(image_or(wrong_image, n, random), &event, result);
        let refusals = [wrong_image.map(|cause| cause.number), wrong_event.map(|_| 5), (result < 80).then_some(10)];
        expect(watch, &case, refusals.into_iter().flatten().next().map(|number| (number, 0)))?;

        let wrong_image = random.one_in(4).then(|| &images[random.index(images.len())]);
        let (tape, wrong_tape) = many_damages(random, n);
        let case = Case::run(image_or(wrong_image, n, random), tape, 12 * SLOTS * 5, result);
        let refusals = [wrong_image.map(|cause| (cause.number, 0)), wrong_tape, (result < 80).then_some((10, 0))];
        expect(watch, &case, refusals.into_iter().flatten().next())?;

        let wrong_image = random.flip().then(|| &images[random.index(images.len())]);
        let image = image_or(wrong_image, n, random);
        let refusals = [wrong_image.map(|cause| cause.number), (result < 80).then_some(10)];
        let due = refusals.into_iter().flatten().next().map(|number| (number, 0));
        expect(watch, &Case::stopped(image.clone(), result), due)?;
        let refusals = [wrong_image.filter(|cause| cause.refuses_survey()).and(due), (result < 80).then_some((10, 0))];
        expect(watch, &Case::survey(image, result), refusals.into_iter().flatten().next())?;
    }
    Ok(())
}

/// The keys of all refusals that the tally must have.
pub fn keys() -> Vec<String> {
    let mut keys = Vec::new();
    for cause in image_causes() {
        keys.extend(["step", "run", "stopped"].map(|call| key(call, cause.number, &cause.name)));
        keys.extend(cause.refuses_survey().then(|| key("survey", cause.number, &cause.name)));
    }
    for cause in length_causes().iter().chain(&event_causes()) {
        keys.push(key("step", 5, &cause.name));
    }
    for cause in tape_causes() {
        keys.push(key("run", cause.number, &cause.name));
    }
    for cause in ["ledger a byte short", "ledger a record short", "ledger of no bytes", "ledger of 11 bytes"] {
        keys.push(key("run", 10, cause));
    }
    keys.extend(["step", "run", "stopped", "survey"].map(|call| key(call, 10, RESULT_SHORT)));
    keys
}

/// An image that is refused for this cause; where it has all its bytes, at times with more.
pub fn refused_image(cause: &ImageCause, n: usize, process: usize, random: &mut Random) -> Vec<u8> {
    let image = cause.image(random, n, process);
    match cause.number {
        4 => longer(image, random),
        _ => image,
    }
}

/// An image for this cause, or a sound one.
fn image_or(cause: Option<&ImageCause>, n: usize, random: &mut Random) -> Vec<u8> {
    let process = random.index(n);
    match cause {
        Some(cause) => refused_image(cause, n, process, random),
        None => sound(random, n),
    }
}

/// A call that must be refused so, or accepted.
fn expect(watch: &mut Watch, case: &Case, refusal: Option<(u64, u64)>) -> Work<()> {
    match refusal {
        Some((number, place)) => watch.refused(case, number, place, "several causes"),
        None => watch.accepted(case).map(|_| ()),
    }
}

/// A tape of one or two blocks.
fn short_tape(random: &mut Random, n: usize) -> Tape {
    let (blocks, last) = (random.within(1, 2), random.within(1, SLOTS));
    any_tape(random, n, blocks, last)
}

/// An image and a tape whose run writes two records or more, and the bytes for them.
fn run_with_records(random: &mut Random, n: usize) -> (Vec<u8>, Tape, usize) {
    loop {
        let image = sound(random, n);
        let list = guided(&image, 60, random);
        let tape = Tape::of(list.as_chunks().0);
        let records = records(&image, &tape);
        if records >= 2 {
            return (image, tape, 12 * records);
        }
    }
}

/// A tape with none to four things wrong, and the refusal that is due first.
fn many_damages(random: &mut Random, n: usize) -> (Tape, Option<(u64, u64)>) {
    let (blocks, used) = (random.within(1, 4), random.within(1, SLOTS));
    let mut tape = any_tape(random, n, blocks, used);
    let mut due = Vec::new();
    for _ in 0..random.within(0, 4) {
        due.extend(damage(random, n, &mut tape, used));
    }
    if random.one_in(8) {
        tape.tail = vec![7; random.within(1, 511)];
        return (tape, Some((6, 0)));
    }
    due.sort();
    (tape, due.first().map(|(_, _, number, place)| (*number, *place)))
}

/// Damages a block, and gives the refusal with its turn: the block, the turn in it, the number, the place.
fn damage(random: &mut Random, n: usize, tape: &mut Tape, used: usize) -> Option<(usize, usize, u64, u64)> {
    let place = random.index(tape.blocks.len());
    let last = place + 1 == tape.blocks.len();
    let slots = if last { used } else { SLOTS };
    let block = &mut tape.blocks[place];
    match random.index(5) {
        0 => {
            block.seal = Seal::Off(1 << random.index(32));
            Some((place, 0, 7, place as u64))
        }
        1 => {
            block.set_number(place as u16 + random.within(1, 9) as u16);
            Some((place, 1, 8, place as u64))
        }
        2 => {
            block.set_count(random.pick(&[0, 64, 1_000]));
            Some((place, 1, 8, place as u64))
        }
        3 if slots < SLOTS => {
            *block.byte(8 + 8 * random.within(slots, SLOTS - 1)) = random.set_byte();
            Some((place, 2 + SLOTS, 9, place as u64))
        }
        _ => {
            let causes = event_causes();
            let wrong: Vec<u8> = causes[random.index(causes.len())].event(random, n);
            let slot = random.index(slots);
            block.set_slot(slot, Event::try_from(wrong).expect("an event for a tape has 8 bytes"));
            Some((place, 2 + slot, 5, (SLOTS * place + slot) as u64))
        }
    }
}
