//! Steps: one event after another on one image, each compared, with a stopped call now and then.

use crate::case::Case;
use crate::image::{at, fresh, sound, sound_in_stage, sound_in_stage_with, Envelope, NEWS};
use crate::{Watch, Work};
use compare::damage::any_event;
use compare::tape::{event, Event};
use guide::{guided_event, Random};

/// How the next event of a list is chosen.
type Choice = fn(&[u8], &mut Random) -> Event;

/// An event that is mostly possible on an image; one time in four it shuns those of a code, so that these wait.
pub fn likely(image: &[u8], random: &mut Random) -> Event {
    let shunned = if random.one_in(4) { 1 << random.index(8) } else { 0 };
    guided_event(image, shunned, random)
}

/// Any event for the N of an image.
fn any(image: &[u8], random: &mut Random) -> Event {
    any_event(random, usize::from(image[0]))
}

/// Steps from a fresh ring with any events: most are idle.
pub fn uniform(watch: &mut Watch, n: usize, random: &mut Random) -> Work<()> {
    watch.tally.reached = true;
    let image = fresh(n, random.index(n));
    steps(watch, image, 600, any, random)
}

/// Steps from a fresh ring with events that are mostly possible.
pub fn guided(watch: &mut Watch, n: usize, random: &mut Random) -> Work<()> {
    watch.tally.reached = true;
    let many = if matches!(n, 2 | 3 | 8 | 64) { 20_000 } else { 3_000 };
    let image = fresh(n, random.index(n));
    steps(watch, image, many, likely, random)
}

/// Steps from sound images that a ring need not get to: each stage at the process of the first event.
pub fn unreached(watch: &mut Watch, n: usize, random: &mut Random) -> Work<()> {
    watch.tally.reached = false;
    for stage in 0..=10 {
        for code in 0..8 {
            for process in [0, random.index(n), n - 1] {
                let image = sound_in_stage(random, n, process, stage);
                let message = if code == 0 { random.words() } else { 0 };
                watch.accepted(&Case::step(longer(image, random), &event(process, code, message), 80))?;
            }
        }
    }
    for _ in 0..60 {
        let image = longer(sound(random, n), random);
        watch.accepted(&Case::stopped(image.clone(), 80))?;
        steps(watch, image, 12, likely, random)?;
    }
    Ok(())
}

/// Puts with news in every stage, with and without the envelope, from sound images that a ring need not get to.
pub fn puts(watch: &mut Watch, n: usize, random: &mut Random) -> Work<()> {
    watch.tally.reached = false;
    for stage in 0..=10 {
        for had in [true, false].repeat(12) {
            for full in [false, true] {
                let process = random.index(n);
                let mut image = match stage {
                    0 | 1 | 2 | 6 | 7 => {
                        sound_in_stage_with(random, n, process, stage, Envelope { full, process, had })
                    }
                    _ => sound_in_stage(random, n, process, stage),
                };
                image[at(process) + 1] |= NEWS;
                watch.accepted(&Case::step(image, &event(process, 7, 0), 80))?;
            }
        }
    }
    Ok(())
}

/// Images in which just one thing can still move, or nothing, at each process in turn, for the stopped call.
pub fn nearly_stopped(watch: &mut Watch, n: usize, random: &mut Random) -> Work<()> {
    watch.tally.reached = false;
    for process in 0..n {
        let elsewhere = (process + random.within(1, n - 1)) % n;
        for home in [process, elsewhere] {
            let still = still(random, n, home);
            watch.accepted(&Case::stopped(still.clone(), 80))?;
            let record = at(process);
            let flags = still[record + 1];
            let news_or_link = [(1, flags | 4), (2, 64), (2, 128)];
            let stages = [1, 2, 6, 7].map(|stage| (0, stage));
            for (byte, value) in news_or_link.into_iter().chain(stages) {
                let mut image = still.clone();
                image[record + byte] = value;
                watch.accepted(&Case::stopped(image, 80))?;
            }
        }
        for (stage, full, flag) in [(3, 0, 1), (9, 0, 1), (10, 0, 1), (4, 1, 1), (5, 1, 1), (8, 1, 1), (0, 0, 2)] {
            let mut image = still(random, n, process);
            image[1] = full;
            image[at(process)] = stage;
            image[at(process) + 1] = flag;
            watch.accepted(&Case::stopped(image, 80))?;
        }
    }
    Ok(())
}

/// A stopped image: no news, nothing on a link, nobody with a signal or work to do.
fn still(random: &mut Random, n: usize, home: usize) -> Vec<u8> {
    let mut image = fresh(n, home);
    image[2] = random.index(4) as u8;
    for process in 0..n {
        image[at(process) + 2] = random.index(16) as u8;
    }
    image
}

/// So many steps on one image, and a stopped call after one in eight.
pub fn steps(watch: &mut Watch, mut image: Vec<u8>, many: usize, choose: Choice, random: &mut Random) -> Work<()> {
    for _ in 0..many {
        let event = choose(&image, random);
        image = watch.accepted(&Case::step(image, &event, 80))?.image;
        if random.one_in(8) {
            watch.accepted(&Case::stopped(image.clone(), 80))?;
        }
    }
    Ok(())
}

/// The image, at times with further bytes.
pub fn longer(mut image: Vec<u8>, random: &mut Random) -> Vec<u8> {
    if random.one_in(3) {
        (0..random.within(1, 24)).for_each(|_| image.push(random.draw() as u8));
    }
    image
}
