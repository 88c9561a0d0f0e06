//! The ring of processes with one envelope, a second time: plain Rust written from document 01
//! alone, and the load, the tape of no events, the survey and the traffic from document 02.
//!
//! It is the other side of the differential tests, the baseline of the benchmark, and says what
//! ringrun must print for its samples. It shares nothing with the proved library, has no `unsafe`, and
//! works in place on the lent bytes, without a heap but for ringrun's text. One module an idea:
//!
//! - `answer`: refusals ("Where a call is turned down") and the result slice ("The tape"),
//! - `image`: the bits of an image, its parts, the fresh ring, stopped ("The image", "Stopped"),
//! - `walk`: the one walk over an image's records, soundness, flags and marks (document 02, A.3),
//! - `event`: one event, tested and performed ("The eight events"),
//! - `traffic`: what an event, or a run of them, sends (document 02, A.4),
//! - `put`: what put does (event 7),
//! - `tape`: the blocks, their check and test, writer and reader ("The tape"),
//! - `load`: the tape of events that are drawn from a seed (document 02, A.1),
//! - `run`: a tape of events with its ledger and counts ("The run"),
//! - `report`: what the program ringrun prints ("The tape").
//!
//! Every call is generic over a planted fault. `FAULT = 0` is the right one, and there the code of
//! the faults vanishes when it is compiled; the others exist to show that the tests find them. So the
//! calls are compiled in the package that makes them, and what is not generic is `#[inline]` where
//! it would else stay a call into this one.

#![forbid(unsafe_code)]

mod answer;
mod event;
mod image;
mod load;
mod put;
mod report;
mod run;
mod tape;
mod traffic;
mod walk;

use answer::{answer, Refusal, LEAST_RESULT, OUTPUT_TOO_SHORT};
use event::Outcome;
use image::Ring;

/// The planted faults, from 1 on, in their order.
pub const FAULTS: [&str; 27] = [
    "the right of the last of 37 processes is process 1",
    "an absorbed request does not set 'asked itself'",
    "put clears after it has forwarded",
    "forward sets no marker where the envelope stays",
    "a process already marked is counted once more",
    "refusal 8 is tested before refusal 7",
    "an idle event that ends the tape is not counted",
    "the ledger's event number wraps at 65,536",
    "an image with mark empty in stage 6 is sound",
    "the result is zeroed up to byte 72 only",
    "a ledger is refused unless it has room for one record more",
    "refusal 5 in a tape is placed by its slot alone",
    "a check whose upper half is 65,535 passes for 0",
    "stopped overlooks a request for empty at the last process",
    "the third number of a load's event is drawn only where the code is 0",
    "a load whose seed is 2,147,483,646 is refused",
    "a load's count is tested before its seed",
    "a tape or list of no bytes is refused",
    "the last block may have count 0",
    "a run of no events clears the ledger's first byte",
    "a survey's sets have process 0 as their highest digit",
    "a survey counts arriving flags in sound images only",
    "a survey takes 65 processes for a ring",
    "a request that a waiting one absorbs is not counted",
    "two requests of one event are counted as one",
    "the departure of a put that ends is not counted",
    "a run's traffic is that of its last event",
];

/// Step: performs one event. The result gets the outcome and its message, then its traffic.
pub fn ring_step<const FAULT: u8>(image: &mut [u8], event: &[u8], result: &mut [u8]) -> u64 {
    let done = step::<FAULT>(image, event, result.len());
    answer::<FAULT, _>(result, done)
}

/// Inlined where it is called, or its answer goes through memory: 30 of some 250 instructions.
#[inline(always)]
fn step<const FAULT: u8>(image: &mut [u8], event: &[u8], result: usize) -> Result<[u64; 4], Refusal> {
    let mut ring = Ring::sound::<FAULT>(image)?;
    let event = event::single(ring.envelope.size(), event)?;
    room_for_result(result)?;
    let outcome = event::perform::<FAULT>(&mut ring.envelope, ring.records, event);
    ring.envelope.store(ring.header);
    let Outcome { kind, message, traffic } = outcome;
    Ok([kind, message, traffic.requests(), traffic.departures()])
}

/// Run: performs every event of a tape. The result gets the eight counts, then the traffic of all.
pub fn ring_run<const FAULT: u8>(image: &mut [u8], tape: &[u8], ledger: &mut [u8], result: &mut [u8]) -> u64 {
    let done = whole_run::<FAULT>(image, tape, ledger, result.len());
    answer::<FAULT, _>(result, done)
}

fn whole_run<const FAULT: u8>(
    image: &mut [u8],
    tape: &[u8],
    ledger: &mut [u8],
    result: usize,
) -> Result<[u64; 10], Refusal> {
    let ring = Ring::sound::<FAULT>(image)?;
    let tape = tape::tested::<FAULT>(ring.envelope.size(), tape)?;
    room_for_result(result)?;
    run::run::<FAULT>(ring, tape, ledger)
}

/// Stopped: 1 if no event of the codes 2 to 7 is possible, else 0.
pub fn ring_stopped<const FAULT: u8>(image: &[u8], result: &mut [u8]) -> u64 {
    let done = stopped::<FAULT>(image, result.len());
    answer::<FAULT, _>(result, done)
}

fn stopped<const FAULT: u8>(image: &[u8], result: usize) -> Result<[u64; 1], Refusal> {
    let (_, records) = image::sound::<FAULT>(image)?;
    room_for_result(result)?;
    let yes = u64::from(image::stopped::<FAULT>(records));
    Ok([yes])
}

/// Survey: what the walk over the records of an image finds, sound or not. The result gets the number and the place of
/// the refusal that step, run and stopped have for the image, 0 and 0 if it is sound; then flags and both sets.
pub fn ring_survey<const FAULT: u8>(image: &[u8], result: &mut [u8]) -> u64 {
    let done = survey::<FAULT>(image, result.len());
    answer::<FAULT, _>(result, done)
}

fn survey<const FAULT: u8>(image: &[u8], result: usize) -> Result<[u64; 5], Refusal> {
    let most = if FAULT == 23 { 65 } else { image::MOST_SIZE };
    let (envelope, records) = image::parts(image, most)?;
    room_for_result(result)?;
    let found = walk::walk::<FAULT>(envelope, records);
    let verdict = found.verdict().err().unwrap_or(Refusal { number: 0, place: 0 });
    let digits = |set: u64| if FAULT == 21 { set.reverse_bits() >> (64 - records.len()) } else { set };
    Ok([verdict.number, verdict.place, found.flags, digits(found.full), digits(found.empty)])
}

/// Fresh ring: zeros, then N and the home's have flag. The result gets zeros.
pub fn ring_fresh<const FAULT: u8>(n: u64, home: u64, image: &mut [u8], result: &mut [u8]) -> u64 {
    let done = fresh(n, home, image, result.len());
    answer::<FAULT, _>(result, done)
}

fn fresh(n: u64, home: u64, image: &mut [u8], result: usize) -> Result<[u64; 0], Refusal> {
    let size = size_argument(n)?;
    if home >= n {
        return Err(Refusal { number: 2, place: 0 });
    }
    let image = image::buffer_for(size, image)?;
    room_for_result(result)?;
    image::fill_fresh(size, home as usize, image);
    Ok([])
}

/// Writer: turns a list of events for N into a tape. The result gets the bytes filled.
pub fn ring_write<const FAULT: u8>(n: u64, list: &[u8], output: &mut [u8], result: &mut [u8]) -> u64 {
    let done = write::<FAULT>(n, list, output, result.len());
    answer::<FAULT, _>(result, done)
}

fn write<const FAULT: u8>(n: u64, list: &[u8], output: &mut [u8], result: usize) -> Result<[u64; 1], Refusal> {
    let list = tape::tested_list::<FAULT>(size_argument(n)?, list)?;
    let output = tape::output_for_tape(list.len(), output)?;
    room_for_result(result)?;
    tape::write::<FAULT>(list, output);
    Ok([output.len() as u64 * 512])
}

/// Reader: turns a tape into its list of events. The result gets the bytes filled.
pub fn ring_read<const FAULT: u8>(n: u64, tape: &[u8], output: &mut [u8], result: &mut [u8]) -> u64 {
    let done = read::<FAULT>(n, tape, output, result.len());
    answer::<FAULT, _>(result, done)
}

fn read<const FAULT: u8>(n: u64, tape: &[u8], output: &mut [u8], result: usize) -> Result<[u64; 1], Refusal> {
    let tape = tape::tested::<FAULT>(size_argument(n)?, tape)?;
    let output = tape::output_for_list(tape, output)?;
    room_for_result(result)?;
    tape::read(tape, output);
    Ok([output.len() as u64])
}

/// Load: makes the tape of so many events for N, drawn from a seed. The result gets the bytes filled.
pub fn ring_load<const FAULT: u8>(n: u64, seed: u64, count: u64, output: &mut [u8], result: &mut [u8]) -> u64 {
    let done = load::<FAULT>(n, seed, count, output, result.len());
    answer::<FAULT, _>(result, done)
}

fn load<const FAULT: u8>(n: u64, seed: u64, count: u64, output: &mut [u8], result: usize) -> Result<[u64; 1], Refusal> {
    let size = size_argument(n)?;
    if FAULT == 17 {
        load::tested_count(count)?;
    }
    let generator = load::tested_seed::<FAULT>(seed)?;
    let count = load::tested_count(count)?;
    let output = tape::output_for_tape(count, output)?;
    room_for_result(result)?;
    load::write::<FAULT>(size, generator, count, output);
    Ok([output.len() as u64 * 512])
}

/// The text that the program ringrun prints for its whole standard input.
pub fn report(input: &[u8]) -> Vec<u8> {
    report_with::<0>(input)
}

/// The same with a planted fault.
pub fn report_with<const FAULT: u8>(input: &[u8]) -> Vec<u8> {
    report::text::<FAULT>(input)
}

/// Refusal 1: N as an argument.
fn size_argument(n: u64) -> Result<usize, Refusal> {
    match n {
        image::LEAST_SIZE..=image::MOST_SIZE => Ok(n as usize),
        _ => Err(Refusal { number: 1, place: 0 }),
    }
}

/// Refusal 10 for a result slice that is too short; it comes after all other tests.
fn room_for_result(length: usize) -> Result<(), Refusal> {
    if length < LEAST_RESULT {
        return Err(OUTPUT_TOO_SHORT);
    }
    Ok(())
}
