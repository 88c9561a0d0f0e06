//! The ways to make a case smaller.

use std::iter;

use crate::case::{Call, Case};
use crate::edits::{
    change_event, change_tape, idle_event, performed, records, set_events, set_ledger, without_process, written,
};
use crate::image::{at, recount, size, ARRIVING, HAVE};
use compare::shrink::{changed, halvings, Smaller, Way};
use compare::smaller::smaller_tapes;
use compare::tape::Event;

/// All of them, in the order in which they are tried.
pub const WAYS: [Way<Case>; 10] = [
    advanced,
    cut_off,
    idle_before_the_last,
    shorter_buffers,
    fewer_events,
    mended_tapes,
    as_a_step,
    simpler_events,
    fewer_processes,
    cleared_images,
];

/// The case with this image and these events on its tape, with its ledger or else with one shorter by the records that
/// are gone.
fn with_events<'a>(case: &'a Case, image: Vec<u8>, events: &[Event]) -> impl Iterator<Item = Case> + 'a {
    let kept = changed(case, |case| {
        case.image = image;
        set_events(case, events);
    });
    let shorter = kept.clone();
    let shorter = iter::once_with(move || {
        let gone = records(case).saturating_sub(records(&shorter));
        changed(&shorter, |shorter| set_ledger(shorter, case.ledger().saturating_sub(12 * gone)))
    });
    iter::once(kept).chain(shorter)
}

/// First events performed beforehand.
fn advanced(case: &Case) -> Smaller<'_, Case> {
    let events = written(case);
    let rests = halvings(events.len().saturating_sub(1)).filter_map(move |first| {
        let (performed_first, rest) = events.split_at(first);
        Some((performed(&case.image, performed_first)?, rest.to_vec()))
    });
    Box::new(rests.flat_map(|(image, rest)| with_events(case, image, &rest)))
}

/// Events cut off the end, in chunks that get smaller.
fn cut_off(case: &Case) -> Smaller<'_, Case> {
    let events = written(case);
    let kept = halvings(events.len() / 2).map(move |chunk| events[..events.len() - chunk].to_vec());
    Box::new(kept.flat_map(|events| with_events(case, case.image.clone(), &events)))
}

/// Events dropped, in chunks that get smaller, from the end; of a list that stays long only large chunks.
fn fewer_events(case: &Case) -> Smaller<'_, Case> {
    let events = written(case);
    let count = events.len();
    let chunks = halvings(count / 2).take_while(move |chunk| *chunk > count / 100 || count < 1_000);
    let stretches =
        chunks.flat_map(move |chunk| (1..=count / chunk).map(move |k| count - k * chunk..count - (k - 1) * chunk));
    let fewer = stretches.map(move |stretch| [&events[..stretch.start], &events[stretch.end..]].concat());
    Box::new(fewer.flat_map(|events| with_events(case, case.image.clone(), &events)))
}

/// Where events can't be dropped since their number counts: those before the last performed beforehand, and idle ones
/// in their place.
fn idle_before_the_last(case: &Case) -> Smaller<'_, Case> {
    let mut events = written(case);
    let first = events.len().saturating_sub(1);
    let idle = || {
        let image = performed(&case.image, &events[..first])?;
        let idle = idle_event(&image)?;
        let all_idle = events[..first].iter().all(|event| *event == idle);
        (first >= 4 && !all_idle).then_some((image, idle))
    };
    let Some((image, idle)) = idle() else { return Box::new(iter::empty()) };
    events[..first].fill(idle);
    Box::new(with_events(case, image, &events))
}

/// The result slice with its 80 bytes, the ledger with no more than it needs, the image without further bytes.
fn shorter_buffers(case: &Case) -> Smaller<'_, Case> {
    let ledger = case.ledger();
    let halved = (0..64).map(|halvings| ledger >> halvings).rev();
    let fewer = (1..=16).filter_map(|fewer| ledger.checked_sub(fewer)).rev();
    let lengths: Vec<usize> = halved.chain(fewer).filter(|length| *length < ledger).collect();
    let ledgers = lengths.into_iter().map(|length| changed(case, |case| set_ledger(case, length)));
    let image = case.image.first().map(|n| changed(case, |case| case.image.truncate(at(usize::from(*n)))));
    Box::new(iter::once(changed(case, |case| case.result = 80)).chain(ledgers).chain(image))
}

/// A damaged tape with a block fewer, or with one mended.
fn mended_tapes(case: &Case) -> Smaller<'_, Case> {
    match &case.call {
        Call::Run { tape, .. } if !tape.is_written() => {
            let with_tape = |smaller| changed(case, |case| change_tape(case, |tape| *tape = smaller));
            Box::new(smaller_tapes(tape).map(with_tape))
        }
        _ => Box::new(iter::empty()),
    }
}

/// A run of one event as a step.
fn as_a_step(case: &Case) -> Smaller<'_, Case> {
    match written(case)[..] {
        [event] => Box::new(iter::once(changed(case, |case| case.call = Call::Step { event: event.to_vec() }))),
        _ => Box::new(iter::empty()),
    }
}

/// Smaller messages in the first events of a run; zeros in a step's event, or fewer bytes.
fn simpler_events(case: &Case) -> Smaller<'_, Case> {
    if let Call::Step { event } = &case.call {
        let zeros = (0..event.len()).map(|k| changed(case, |case| change_event(case, |event| event[k] = 0)));
        let shorter =
            (8..event.len()).map(|length| changed(case, |case| change_event(case, |event| event.truncate(length))));
        return Box::new(zeros.chain(shorter));
    }
    let events = written(case);
    let simpler = (0..events.len().min(100)).map(move |k| changed(&events, |events| events[k][4..].fill(0)));
    Box::new(simpler.flat_map(|events| with_events(case, case.image.clone(), &events)))
}

/// Without a process that the case can do without, which makes N smaller.
fn fewer_processes(case: &Case) -> Smaller<'_, Case> {
    let n = size(&case.image).unwrap_or(0);
    Box::new((0..n).rev().filter_map(|process| without_process(case, process)))
}

/// Records, bytes and bits of the image cleared, with the counts set right or else without; of an image that hasn't all
/// its records, or is of no ring, bytes and bits alone.
fn cleared_images(case: &Case) -> Smaller<'_, Case> {
    let n = size(&case.image).unwrap_or(0);
    let image = &case.image;
    let records = (0..n).map(move |process| {
        changed(image, |image| {
            let flag = image[at(process) + 1] & (HAVE | ARRIVING);
            image[at(process)..at(process + 1)].copy_from_slice(&[0, flag, 0, 0, 0, 0, 0, 0]);
        })
    });
    let masks = || iter::once(0).chain((0..8).map(|bit| !(1 << bit)));
    let bits = (1..image.len()).flat_map(move |byte| masks().map(move |mask: u8| (byte, mask)));
    let bits = bits.map(move |(byte, mask)| changed(image, |image| image[byte] &= mask));
    let other = records.chain(bits).filter(move |cleared| cleared != image);
    let counted = other.flat_map(move |image| [recounted(&image, n), image]);
    Box::new(counted.map(|image| Case { image, ..case.clone() }))
}

/// An image of N processes with its counts set right, or as it is where N is 0.
fn recounted(image: &Vec<u8>, n: usize) -> Vec<u8> {
    changed(image, |image| {
        if n > 0 {
            recount(&mut image[..at(n)])
        }
    })
}
