//! The functions of the proved library, as they are: numbers and byte slices.
//!
//! What is returned is the refusal's number, and 0 if there is none. A result slice of at least 80 bytes gets ten
//! 64-bit little-endian words at its start: outcome and message of a step, the eight counts of a run, both followed by
//! their requests and departures, 1 or 0 for a ring that is stopped or isn't, the findings of a survey, the bytes that
//! the writer, the reader or the load filled, or the place of a refusal, and 0 in the words behind. In a shorter one
//! nothing is written, and a call that is not refused otherwise is then refused with 10. The calls of the crate itself
//! say the same with types; `include/vengloaz.h` declares the functions for C.
//!
//! This is the one module of the package with `unsafe`. It is sound because a slice passes as its own pointer and
//! length, because the borrows keep the slices of a call apart and alive until it returns, and because the functions,
//! which are proved for all bytes and lengths, touch nothing else and write only to what is passed as `&mut`.
#![allow(unsafe_code)]

/// The functions as `libring_host.a` and `libring_tools.a` export them: a slice is a pointer, then a length.
mod exported {
    extern "C" {
        pub fn ring_step(
            image: *mut u8,
            image_len: usize,
            event: *const u8,
            event_len: usize,
            result: *mut u8,
            result_len: usize,
        ) -> u64;

        pub fn ring_run(
            image: *mut u8,
            image_len: usize,
            tape: *const u8,
            tape_len: usize,
            ledger: *mut u8,
            ledger_len: usize,
            result: *mut u8,
            result_len: usize,
        ) -> u64;

        pub fn ring_stopped(image: *const u8, image_len: usize, result: *mut u8, result_len: usize) -> u64;

        pub fn ring_survey(image: *const u8, image_len: usize, result: *mut u8, result_len: usize) -> u64;

        pub fn ring_fresh(
            n: u64,
            home: u64,
            image: *mut u8,
            image_len: usize,
            result: *mut u8,
            result_len: usize,
        ) -> u64;

        pub fn ring_write(
            n: u64,
            list: *const u8,
            list_len: usize,
            output: *mut u8,
            output_len: usize,
            result: *mut u8,
            result_len: usize,
        ) -> u64;

        pub fn ring_read(
            n: u64,
            tape: *const u8,
            tape_len: usize,
            output: *mut u8,
            output_len: usize,
            result: *mut u8,
            result_len: usize,
        ) -> u64;

        pub fn ring_load(
            n: u64,
            seed: u64,
            count: u64,
            output: *mut u8,
            output_len: usize,
            result: *mut u8,
            result_len: usize,
        ) -> u64;
    }
}

/// Performs one event on an image. Result words: the outcome (0 idle, 1 moved, 2 fill, 3 take, 4 sent, 5 got), the
/// message, the requests put on the link to the left, and 1 if the envelope left, else 0; on a refusal the place.
///
/// ```
/// use vengloaz::{fresh, raw};
///
/// let mut image = fresh(2, 0)?;
/// let mut result = [0xff; 80];
/// assert_eq!(raw::ring_step(&mut image, &[1, 0, 0, 0, 7, 0, 0, 0], &mut result), 0);
/// assert_eq!(result[0], 1); // moved
/// assert_eq!(image[24], 1); // process 1: send told
/// assert_eq!(image[28], 7); // its note
/// assert_eq!(raw::ring_step(&mut image, &[2, 0, 0, 0, 7, 0, 0, 0], &mut result), 5);
///
/// assert_eq!(raw::ring_step(&mut image, &[1, 3, 0, 0, 0, 0, 0, 0], &mut result), 0);
/// assert_eq!(raw::ring_step(&mut image, &[1, 7, 0, 0, 0, 0, 0, 0], &mut result), 0);
/// assert_eq!((result[16], result[24]), (1, 0)); // one request, no departure
/// # Ok::<(), vengloaz::Refusal>(())
/// ```
pub fn ring_step(image: &mut [u8], event: &[u8], result: &mut [u8]) -> u64 {
    // SAFETY: see the module's comment.
    unsafe {
        exported::ring_step(
            image.as_mut_ptr(),
            image.len(),
            event.as_ptr(),
            event.len(),
            result.as_mut_ptr(),
            result.len(),
        )
    }
}

/// Performs every event of a tape and writes the ledger. Result words: puts, gets, fills, takes, sent, got, idle,
/// records, requests, departures; on a refusal the place.
///
/// ```
/// use vengloaz::{fresh, raw, write, Event};
///
/// let mut image = fresh(2, 0)?;
/// let mut result = [0xff; 80];
/// assert_eq!(raw::ring_run(&mut image, &[0; 511], &mut [], &mut result), 6);
/// assert_eq!(result, [0; 80]); // a ragged tape has place 0
///
/// let tape = write(2, &[Event::get(1), Event::new(1, 3), Event::new(1, 7)])?;
/// assert_eq!(raw::ring_run(&mut image, &tape, &mut [], &mut result), 0);
/// assert_eq!((result[8], result[64], result[72]), (1, 1, 0)); // one get, which asks; the envelope stays
/// # Ok::<(), vengloaz::Refusal>(())
/// ```
pub fn ring_run(image: &mut [u8], tape: &[u8], ledger: &mut [u8], result: &mut [u8]) -> u64 {
    // SAFETY: see the module's comment.
    unsafe {
        exported::ring_run(
            image.as_mut_ptr(),
            image.len(),
            tape.as_ptr(),
            tape.len(),
            ledger.as_mut_ptr(),
            ledger.len(),
            result.as_mut_ptr(),
            result.len(),
        )
    }
}

/// Tells whether no event of the codes 2 to 7 is possible. Result word: 1 for yes, 0 for no; on a refusal the place.
///
/// ```
/// use vengloaz::{fresh, raw};
///
/// let image = fresh(2, 0)?;
/// let mut result = [0xff; 80];
/// assert_eq!(raw::ring_stopped(&image, &mut result), 0);
/// assert_eq!(result[0], 1);
/// assert_eq!(raw::ring_stopped(&image, &mut result[..79]), 10);
/// # Ok::<(), vengloaz::Refusal>(())
/// ```
pub fn ring_stopped(image: &[u8], result: &mut [u8]) -> u64 {
    // SAFETY: see the module's comment.
    unsafe { exported::ring_stopped(image.as_ptr(), image.len(), result.as_mut_ptr(), result.len()) }
}

/// Tells what one walk over an image's records finds, whether the image is sound or not. Result words: the number and
/// the place of the refusal that step, run and stopped have for it, 0 and 0 where it is sound; how many have and
/// arriving flags are set; the processes marked for full, then those marked for empty, each a number whose bit i is
/// process i. On a refusal, for the length or byte 0 alone, the place, which is 0.
///
/// ```
/// use vengloaz::{fresh, raw};
///
/// let mut image = fresh(3, 0)?;
/// image[16 + 8 * 2 + 1] = 3; // process 2: have and arriving, beside the flag of process 0
/// image[16 + 8 * 2 + 2] = 16; // marked for full, idle as it is
/// let mut result = [0xff; 80];
/// assert_eq!(raw::ring_survey(&image, &mut result), 0);
/// assert_eq!(result[0], 4); // not sound
/// assert_eq!(result[16], 3); // flags
/// assert_eq!((result[24], result[32]), (4, 0)); // process 2 is marked for full, nobody for empty
/// assert_eq!(raw::ring_survey(&image[..39], &mut result), 3);
/// # Ok::<(), vengloaz::Refusal>(())
/// ```
pub fn ring_survey(image: &[u8], result: &mut [u8]) -> u64 {
    // SAFETY: see the module's comment.
    unsafe { exported::ring_survey(image.as_ptr(), image.len(), result.as_mut_ptr(), result.len()) }
}

/// Writes the fresh ring of N processes, with the envelope at process home, to the start of an image buffer. Result
/// words: 0; on a refusal the place, which is 0 too.
///
/// ```
/// use vengloaz::raw;
///
/// let mut image = [0xff; 33];
/// let mut result = [0xff; 80];
/// assert_eq!(raw::ring_fresh(2, 0, &mut image, &mut result), 0);
/// assert_eq!((image[0], image[17]), (2, 1)); // N, and process 0 has the envelope
/// assert_eq!(image[32], 0xff); // further bytes are kept
/// assert_eq!(raw::ring_fresh(2, 2, &mut image, &mut result), 2);
/// ```
pub fn ring_fresh(n: u64, home: u64, image: &mut [u8], result: &mut [u8]) -> u64 {
    // SAFETY: see the module's comment.
    unsafe { exported::ring_fresh(n, home, image.as_mut_ptr(), image.len(), result.as_mut_ptr(), result.len()) }
}

/// Writes the tape of a list of events, 8 bytes each, for N processes to the start of an output: 512 bytes for each 63
/// events or part of them. Result word: the bytes filled; on a refusal the place.
///
/// ```
/// use vengloaz::raw;
///
/// let mut tape = [0xff; 512];
/// let mut result = [0xff; 80];
/// assert_eq!(raw::ring_write(2, &[1, 0, 0, 0, 7, 0, 0, 0], &mut tape, &mut result), 0);
/// assert_eq!(result[..2], [0, 2]); // 512 bytes
/// assert_eq!(tape[8..17], [1, 0, 0, 0, 7, 0, 0, 0, 0]); // the event in slot 0
/// assert_eq!(raw::ring_write(2, &[1, 0, 0, 0, 7, 0, 0, 0], &mut tape[1..], &mut result), 10);
/// ```
pub fn ring_write(n: u64, list: &[u8], output: &mut [u8], result: &mut [u8]) -> u64 {
    // SAFETY: see the module's comment.
    unsafe {
        exported::ring_write(
            n,
            list.as_ptr(),
            list.len(),
            output.as_mut_ptr(),
            output.len(),
            result.as_mut_ptr(),
            result.len(),
        )
    }
}

/// Writes the list of events of a tape for N processes to the start of an output: 8 bytes an event. Result word: the
/// bytes filled; on a refusal the place.
///
/// ```
/// use vengloaz::raw;
///
/// let event = [1, 0, 0, 0, 7, 0, 0, 0];
/// let (mut tape, mut list) = ([0; 512], [0; 8]);
/// let mut result = [0xff; 80];
/// assert_eq!(raw::ring_write(2, &event, &mut tape, &mut result), 0);
/// assert_eq!(raw::ring_read(2, &tape, &mut list, &mut result), 0);
/// assert_eq!((result[0], list), (8, event));
/// tape[8] = 0;
/// assert_eq!(raw::ring_read(2, &tape, &mut list, &mut result), 7); // the check differs
/// ```
pub fn ring_read(n: u64, tape: &[u8], output: &mut [u8], result: &mut [u8]) -> u64 {
    // SAFETY: see the module's comment.
    unsafe {
        exported::ring_read(
            n,
            tape.as_ptr(),
            tape.len(),
            output.as_mut_ptr(),
            output.len(),
            result.as_mut_ptr(),
            result.len(),
        )
    }
}

/// Writes the tape of a load, so many events for N processes, drawn from a seed, to the start of an output: 512 bytes
/// for each 63 events or part of them. Result word: the bytes filled; on a refusal the place, which is 0.
///
/// ```
/// use vengloaz::raw;
///
/// let mut tape = [0xff; 513];
/// let mut result = [0xff; 80];
/// assert_eq!(raw::ring_load(4, 1, 63, &mut tape, &mut result), 0);
/// assert_eq!(result[..2], [0, 2]); // 512 bytes
/// assert_eq!(tape[8..16], [3, 1, 0, 0, 0, 0, 0, 0]); // the first event: process 3, code 1
/// assert_eq!(tape[512], 0xff); // further bytes are kept
/// assert_eq!(raw::ring_load(4, 0, 63, &mut tape, &mut result), 11);
/// assert_eq!(raw::ring_load(4, 1, 64, &mut tape, &mut result), 10); // two blocks
/// ```
pub fn ring_load(n: u64, seed: u64, count: u64, output: &mut [u8], result: &mut [u8]) -> u64 {
    // SAFETY: see the module's comment.
    unsafe { exported::ring_load(n, seed, count, output.as_mut_ptr(), output.len(), result.as_mut_ptr(), result.len()) }
}
