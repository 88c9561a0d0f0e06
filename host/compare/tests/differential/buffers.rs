//! Buffers of every length: image, event, ledger and result, short, exact and long.

use crate::case::Case;
use crate::image::{at, sound};
use crate::runs::records;
use crate::{Watch, Work};
use compare::damage::any_event;
use compare::tape::Tape;
use guide::{guided, Random};

/// Images of every length from 0 to some bytes more than they need.
pub fn images(watch: &mut Watch, n: usize, random: &mut Random) -> Work<()> {
    let tape = Tape::of(&[any_event(random, n), any_event(random, n)]);
    for length in 0..at(n) + 20 {
        let mut image = sound(random, n);
        while image.len() < length {
            image.push(random.draw() as u8);
        }
        image.truncate(length);
        watch.call(&Case::step(image.clone(), &any_event(random, n), 80))?;
        watch.call(&Case::stopped(image.clone(), 80))?;
        watch.call(&Case::run(image, tape.clone(), 24, 80))?;
    }
    Ok(())
}

/// Result slices of 0 to 100 bytes, in calls that are otherwise accepted or refused.
pub fn results(watch: &mut Watch, n: usize, random: &mut Random) -> Work<()> {
    for result in 0..=100 {
        for wrong in [false, true] {
            let mut image = sound(random, n);
            let list = guided(&image, 70, random);
            let mut tape = Tape::of(list.as_chunks().0);
            let mut event = any_event(random, n);
            if wrong {
                event[3] = 1;
                tape.blocks[1].set_number(2);
            }
            watch.call(&Case::step(image.clone(), &event, result))?;
            watch.call(&Case::run(image.clone(), tape, 12 * 70, result))?;
            image[5] = u8::from(wrong);
            watch.call(&Case::stopped(image, result))?;
        }
    }
    Ok(())
}

/// Ledgers of every length around what the run needs: by a byte and by a record.
pub fn ledgers(watch: &mut Watch, n: usize, random: &mut Random) -> Work<()> {
    for _ in 0..8 {
        let image = sound(random, n);
        let many = random.within(1, 80);
        let list = guided(&image, many, random);
        let tape = Tape::of(list.as_chunks().0);
        let room = 12 * records(&image, &tape);
        for length in room.saturating_sub(13)..=room + 13 {
            watch.call(&Case::run(image.clone(), tape.clone(), length, 80))?;
        }
        for length in [0, 12 * many - 1, 12 * many, 12 * many + 5, 12 * many + 12] {
            watch.call(&Case::run(image.clone(), tape.clone(), length, 80))?;
        }
    }
    Ok(())
}

/// Events of 0 to 16 bytes, and each byte of an event with each value.
pub fn events(watch: &mut Watch, n: usize, random: &mut Random) -> Work<()> {
    for length in 0..=16 {
        let bytes = [any_event(random, n), any_event(random, n)].concat();
        watch.call(&Case::step(sound(random, n), &bytes[..length], 80))?;
    }
    for byte in 0..8 {
        for value in 0..=255 {
            let mut event = any_event(random, n);
            event[byte] = value;
            watch.call(&Case::step(sound(random, n), &event, 80))?;
        }
    }
    Ok(())
}
