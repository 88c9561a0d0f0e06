//! Traffic, requests put on the link to the left and departures of the envelope: what steps and runs tell of it, and
//! runs held against their own steps.

use std::ops::AddAssign;

use crate::case::{Call, Case};
use crate::image::{any_envelope, at, fresh, sound, sound_in_stage_with, Envelope, NEWS};
use crate::runs::records;
use crate::{Watch, Work};
use compare::compare::Answer;
use compare::link::{asked_itself, left, on_link};
use compare::tape::{event, Event, Tape};
use compare::watch::Found;
use guide::{guided, Random};
use samples::crossing_lists::{EMPTY, FULL};

/// Requests and departures.
#[derive(Clone, Copy, Default, PartialEq, Debug)]
pub struct Traffic {
    pub requests: u64,
    pub departures: u64,
}

impl Traffic {
    /// What the answer to a step tells, or to a run; the others have none.
    pub fn told(case: &Case, answer: &Answer) -> Self {
        let first = match case.call {
            Call::Step { .. } => 2,
            Call::Run { .. } => 8,
            Call::Stopped | Call::Survey => return Traffic::default(),
        };
        let word = |index| answer.word(index).unwrap_or_default();
        Traffic { requests: word(first), departures: word(first + 1) }
    }
}

impl AddAssign for Traffic {
    fn add_assign(&mut self, more: Traffic) {
        self.requests += more.requests;
        self.departures += more.departures;
    }
}

/// What steps and runs may show of their traffic.
pub const SHOWN: [&str; 9] = [
    "step without requests",
    "step with one request",
    "step with two requests",
    "step with a request that is absorbed",
    "step with two requests that are absorbed",
    "step with a departure",
    "run with requests",
    "run with departures",
    "run without traffic",
];

/// What a step showed.
pub fn shown_by_step(case: &Case, event: &[u8], answer: &Answer) -> Vec<&'static str> {
    let Traffic { requests, departures } = Traffic::told(case, answer);
    let [none, one, two, absorbed, both_absorbed, departure, ..] = SHOWN;
    let mut shown = vec![[none, one, two][requests as usize]];
    match absorbed_requests(&case.image, event, &answer.image) {
        0 => {}
        1 => shown.push(absorbed),
        _ => shown.extend([absorbed, both_absorbed]),
    }
    shown.extend((departures == 1).then_some(departure));
    shown
}

/// What a run showed.
pub fn shown_by_run(case: &Case, answer: &Answer) -> Vec<&'static str> {
    let traffic = Traffic::told(case, answer);
    let [.., requests, departures, nothing] = SHOWN;
    let shown = [
        (traffic.requests > 0, requests),
        (traffic.departures > 0, departures),
        (traffic == Traffic::default(), nothing),
    ];
    shown.into_iter().filter_map(|(shows, name)| shows.then_some(name)).collect()
}

/// The requests of an event that found one for the same status on the link, by the images before and after it.
fn absorbed_requests(before: &[u8], event: &[u8], after: &[u8]) -> usize {
    let process = usize::from(event[0]);
    let made = |status| !asked_itself(before, process, status) && asked_itself(after, process, status);
    [FULL, EMPTY].into_iter().filter(|status| made(*status) && on_link(before, process, *status)).count()
}

/// Every way in which a put without the envelope may ask: by its stage, by what its right has asked for, by what it has
/// asked for itself, and by what waits on the link to its left.
pub fn requests(watch: &mut Watch, n: usize, random: &mut Random) -> Work<()> {
    watch.tally.reached = false;
    for stage in [0, 1, 2, 6, 7] {
        for bits in 0..64 {
            let process = random.index(n);
            let envelope = Envelope { had: false, ..any_envelope(random, n) };
            let mut image = sound_in_stage_with(random, n, process, stage, envelope);
            let (own, beside) = (at(process), at(left(&image, process)));
            image[own + 1] |= NEWS;
            image[own + 2] = image[own + 2] & 0xF0 | bits & 0x0F;
            image[beside + 2] = image[beside + 2] & 0x3F | bits << 2 & 0xC0;
            watch.accepted(&Case::step(image, &event(process, 7, 0), 80))?;
        }
    }
    Ok(())
}

/// A run held against its steps.
pub const SUMMED: &str = "run by its steps";

/// Guided lists from fresh rings and sound images, as one run and event by event.
pub fn sums(watch: &mut Watch, n: usize, random: &mut Random) -> Work<()> {
    watch.tally.reached = false;
    for image in [fresh(n, random.index(n)), sound(random, n)] {
        let list = guided(&image, 200, random);
        summed(watch, image, list.as_chunks().0)?;
    }
    Ok(())
}

/// A list as one run, with a ledger that just fits, and event by event: what the run tells must be what its steps tell,
/// added up. Gives the image after it, and how many of its events were idle.
pub fn summed(watch: &mut Watch, mut image: Vec<u8>, list: &[Event]) -> Work<(Vec<u8>, usize)> {
    let tape = Tape::of(list);
    let room = 12 * records(&image, &tape);
    let run = Case::run(image.clone(), tape, room, 80);
    let told = Traffic::told(&run, &watch.accepted(&run)?);
    let (mut sum, mut idle) = (Traffic::default(), 0);
    for event in list {
        let step = Case::step(image, event, 80);
        let answer = watch.accepted(&step)?;
        sum += Traffic::told(&step, &answer);
        idle += usize::from(answer.word(0) == Some(0));
        image = answer.image;
    }
    if told != sum {
        return Err(Found::new(&run, vec![format!("both tell {told:?}, and {sum:?} step by step")]));
    }
    watch.tally.count_way(SUMMED);
    Ok((image, idle))
}
