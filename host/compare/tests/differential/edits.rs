//! Changes to a case that the shrinker tries.

use crate::case::{Call, Case};
use crate::image::{at, recount, size, ARRIVING, HAVE};
use compare::tape::{event, Event, Tape, SLOTS};
use guide::possible;

/// The events of a case, if it is a run of a tape as written; else none.
pub fn written(case: &Case) -> Vec<Event> {
    match &case.call {
        Call::Run { tape, .. } if tape.is_written() => tape.events(),
        _ => Vec::new(),
    }
}

/// Changes the tape of a run.
pub fn change_tape(case: &mut Case, change: impl FnOnce(&mut Tape)) {
    if let Call::Run { tape, .. } = &mut case.call {
        change(tape);
    }
}

/// Changes the event of a step.
pub fn change_event(case: &mut Case, change: impl FnOnce(&mut Vec<u8>)) {
    if let Call::Step { event } = &mut case.call {
        change(event);
    }
}

/// Gives a run the tape of these events.
pub fn set_events(case: &mut Case, events: &[Event]) {
    change_tape(case, |tape| *tape = Tape::of(events));
}

/// Gives a run a ledger of this length.
pub fn set_ledger(case: &mut Case, length: usize) {
    if let Call::Run { ledger, .. } = &mut case.call {
        *ledger = length;
    }
}

/// The image after these events, if they can be run on it.
pub fn performed(image: &[u8], events: &[Event]) -> Option<Vec<u8>> {
    run(image, events).map(|(image, _)| image)
}

/// The records of a case that is a run; 0 if it is none or is refused.
pub fn records(case: &Case) -> usize {
    let Call::Run { tape, .. } = &case.call else { return 0 };
    run(&case.image, &tape.events()).map_or(0, |(_, records)| records)
}

/// The image after these events and the records that they make, if they can be run.
fn run(image: &[u8], events: &[Event]) -> Option<(Vec<u8>, usize)> {
    let mut image = image.to_vec();
    let mut ledger = vec![0; 12 * events.len()];
    let mut result = [0; 80];
    let number = plain::ring_run::<0>(&mut image, &Tape::of(events).bytes(), &mut ledger, &mut result);
    let records = u64::from_le_bytes(*result[56..].first_chunk()?);
    (number == 0).then_some((image, records as usize))
}

/// An event that is idle on an image.
pub fn idle_event(image: &[u8]) -> Option<Event> {
    let n = size(image)? as u64;
    let idle = |process: u64, code: u8| possible(image, process) & (1 << code) == 0;
    let mut pairs = [7, 2, 4].into_iter().flat_map(|code| (0..n).map(move |process| (process, code)));
    let (process, code) = pairs.find(|(process, code)| idle(*process, *code))?;
    Some(event(process as usize, code, 0))
}

/// The case with one process less; none if the envelope or an event is there.
pub fn without_process(case: &Case, process: usize) -> Option<Case> {
    let mut case = case.clone();
    let n = size(&case.image)?;
    if n == 2 || case.image[at(process) + 1] & (HAVE | ARRIVING) != 0 {
        return None;
    }
    case.image.drain(at(process)..at(process + 1));
    case.image[0] -= 1;
    recount(&mut case.image[..at(n - 1)]);
    let mut dropped = true;
    let mut renumber = |number: &mut u8| {
        dropped &= usize::from(*number) != process;
        *number -= u8::from(usize::from(*number) > process);
    };
    match &mut case.call {
        Call::Step { event } => event.first_mut().into_iter().for_each(renumber),
        Call::Run { tape, .. } => {
            for block in &mut tape.blocks {
                let used = usize::from(block.count()).min(SLOTS);
                (0..used).for_each(|slot| renumber(block.byte(8 + 8 * slot)));
            }
        }
        Call::Stopped | Call::Survey => {}
    }
    dropped.then_some(case)
}
