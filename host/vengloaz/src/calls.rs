//! The calls of the reference, with types.

use crate::result_slice::ResultSlice;
use crate::{raw, Event, Findings, Ran, Refusal, Stepped};

/// The bytes of a block, and of the events that it has room for.
const BLOCK: usize = 512;
const EVENTS: usize = 504;

/// The most events of a tape.
const MOST_EVENTS: u64 = 4_128_768;

/// The image of the fresh ring of `n` processes, with the envelope at process `home`: 16 + 8n bytes.
///
/// # Errors
///
/// [`Refusal::RingSize`] unless n is 2 to 64, then [`Refusal::Home`] unless home is below n.
///
/// # Examples
///
/// ```
/// use vengloaz::{fresh, stopped, Refusal};
///
/// let image = fresh(64, 63)?;
/// assert_eq!(image.len(), 16 + 8 * 64);
/// assert!(stopped(&image)?);
/// assert_eq!(fresh(258, 0), Err(Refusal::RingSize)); // numbers are never cut to a byte
/// assert_eq!(fresh(64, 64), Err(Refusal::Home));
/// # Ok::<(), Refusal>(())
/// ```
pub fn fresh(n: u64, home: u64) -> Result<Vec<u8>, Refusal> {
    let mut image = vec![0; 16 + 8 * 64];
    ResultSlice::of(|result| raw::ring_fresh(n, home, &mut image, result))?;
    image.truncate(16 + 8 * n as usize);
    Ok(image)
}

/// Performs one event on an image. One that isn't possible is [`Outcome::Idle`](crate::Outcome::Idle), changes no byte
/// and sends nothing.
///
/// # Errors
///
/// [`Refusal::ImageShort`], [`Refusal::ImageUnsound`] or [`Refusal::Event`] with place 0. The
/// image is then as it was. Bytes that may be no event are for [`raw::ring_step`].
///
/// # Examples
///
/// ```
/// use vengloaz::{fresh, step, Event, Outcome, Refusal, Stepped, Traffic};
///
/// let mut image = fresh(2, 0)?;
/// assert_eq!(step(&mut image, Event::new(1, 7))?.outcome, Outcome::Idle); // no news
/// assert_eq!(step(&mut image, Event::put(1, 7))?.outcome, Outcome::Moved);
/// assert_eq!(step(&mut image, Event::put(1, 8))?.outcome, Outcome::Idle); // not idle itself
/// assert_eq!(step(&mut image, Event::new(2, 3)), Err(Refusal::Event { place: 0 }));
/// assert_eq!(step(&mut image[..31], Event::new(1, 3)), Err(Refusal::ImageShort));
///
/// step(&mut image, Event::new(1, 3))?;
/// let asks = step(&mut image, Event::new(1, 7))?; // its left, process 0, for the empty envelope
/// assert_eq!(asks, Stepped { outcome: Outcome::Moved, traffic: Traffic { requests: 1, departures: 0 } });
/// step(&mut image, Event::new(0, 6))?;
/// let forwards = step(&mut image, Event::new(0, 7))?;
/// assert_eq!(forwards, Stepped { outcome: Outcome::Moved, traffic: Traffic { requests: 0, departures: 1 } });
/// # Ok::<(), Refusal>(())
/// ```
pub fn step(image: &mut [u8], event: Event) -> Result<Stepped, Refusal> {
    Ok(ResultSlice::of(|result| raw::ring_step(image, &event.to_bytes(), result))?.stepped())
}

/// Performs every event of a tape on an image and writes a record for each fill, take, sent and
/// got to the start of the ledger.
///
/// The ledger needs 12 bytes for each record of this run and no more; its further bytes keep their
/// values, and [`records`](crate::records) reads it. With room for a record an event, 12 bytes each, the
/// run is quicker, since it needn't count its records first. A block has up to 63 events, so
/// `tape.len() / 512 * 756` bytes always do. A tape of no bytes has no events: all counts are 0 and so is the traffic,
/// image and ledger stay as they are, and the image has been tested.
///
/// # Errors
///
/// [`Refusal::ImageShort`], [`Refusal::ImageUnsound`], [`Refusal::Length`],
/// [`Refusal::BlockCheck`], [`Refusal::BlockNumber`], [`Refusal::Event`], [`Refusal::UnusedSlot`]
/// or, where the ledger has too few bytes, [`Refusal::OutputShort`]. Image and ledger are then as
/// they were: no event of the tape has been performed.
///
/// # Examples
///
/// ```
/// use vengloaz::{fresh, records, run, write, Event, Outcome, Ran, Record, Refusal, Traffic};
///
/// let list = "1.0(7) 1.3 1.7 0.6 0.7 1.4 1.7 1.2 1.3 1.7 0.1 0.3 0.7 1.5 1.7 0.4 0.7 0.2 0.3 0.7";
/// let events = list.split(' ').map(str::parse).collect::<Result<Vec<Event>, _>>()?;
/// let tape = write(2, &events)?;
///
/// let mut image = fresh(2, 0)?;
/// let mut ledger = vec![0; 12 * events.len()];
/// let Ran { counts, traffic } = run(&mut image, &tape, &mut ledger)?;
/// assert_eq!((counts.puts, counts.gets, counts.idle, counts.records), (1, 1, 0, 4));
/// assert_eq!(traffic, Traffic { requests: 2, departures: 2 });
///
/// let lines: Vec<Record> = records(&ledger[..counts.ledger_bytes()]).collect();
/// assert_eq!(lines[0], Record { event: 7, process: 1, outcome: Outcome::Fill(7) });
/// assert_eq!(lines[1], Record { event: 14, process: 1, outcome: Outcome::Sent });
/// assert_eq!(lines[2], Record { event: 17, process: 0, outcome: Outcome::Take(7) });
/// assert_eq!(lines[3].to_string(), "19 0 got 0");
///
/// // One record too few for a ledger: nothing is performed.
/// let refused = run(&mut fresh(2, 0)?, &tape, &mut ledger[..47]);
/// assert_eq!(refused, Err(Refusal::OutputShort));
/// # Ok::<(), Box<dyn std::error::Error>>(())
/// ```
pub fn run(image: &mut [u8], tape: &[u8], ledger: &mut [u8]) -> Result<Ran, Refusal> {
    Ok(ResultSlice::of(|result| raw::ring_run(image, tape, ledger, result))?.ran())
}

/// Tells whether a ring is stopped: no event of the codes 2 to 7 is possible, so that no main work,
/// get or put could do anything more.
///
/// # Errors
///
/// [`Refusal::ImageShort`] or [`Refusal::ImageUnsound`].
///
/// # Examples
///
/// ```
/// use vengloaz::{fresh, step, stopped, Event, Refusal};
///
/// let mut image = fresh(2, 0)?;
/// assert!(stopped(&image)?);
///
/// step(&mut image, Event::get(1))?;
/// assert!(!stopped(&image)?); // its get thread may take the signal
///
/// image[17] = 0; // the envelope is nowhere
/// assert_eq!(stopped(&image), Err(Refusal::ImageUnsound));
/// # Ok::<(), Refusal>(())
/// ```
pub fn stopped(image: &[u8]) -> Result<bool, Refusal> {
    Ok(ResultSlice::of(|result| raw::ring_stopped(image, result))?.word(0) != 0)
}

/// Tells what one walk over an image's records finds, whether the image is sound or not: the verdict of step, run and
/// stopped on it, how many have and arriving flags are set, and which processes are marked for full and for empty.
///
/// # Errors
///
/// [`Refusal::ImageShort`], or [`Refusal::ImageUnsound`] where byte 0, N, isn't 2 to 64. Any other image that isn't
/// sound is answered, with [`Findings::verdict`] as the refusal.
///
/// # Examples
///
/// ```
/// use vengloaz::{fresh, step, survey, Event, Refusal};
///
/// let mut image = fresh(2, 0)?;
/// for event in [Event::get(0), Event::new(0, 3), Event::new(0, 7)] {
///     step(&mut image, event)?;
///     survey(&image)?.verdict?; // sound after every event
/// }
/// let found = survey(&image)?;
/// assert_eq!((found.flags, found.full, found.empty), (1, 0b01, 0)); // process 0 waits for full, and is marked
///
/// image[16 + 8 + 1] = 1; // process 1 has the envelope, too
/// let found = survey(&image)?;
/// assert_eq!(found.verdict, Err(Refusal::ImageUnsound));
/// assert!(!found.is_sound() && found.flags == 2);
/// assert_eq!(survey(&image[..31]), Err(Refusal::ImageShort));
/// # Ok::<(), Refusal>(())
/// ```
pub fn survey(image: &[u8]) -> Result<Findings, Refusal> {
    Ok(ResultSlice::of(|result| raw::ring_survey(image, result))?.findings())
}

/// The tape of a list of events for a ring of `n` processes: 512 bytes for each 63 events or part of them, and no bytes
/// for no events.
///
/// # Errors
///
/// [`Refusal::RingSize`] unless n is 2 to 64; [`Refusal::Length`] for a list of more than 4,128,768 events;
/// [`Refusal::Event`] with the number of the first event that no ring of n has.
///
/// # Examples
///
/// ```
/// use vengloaz::{write, Event, Refusal};
///
/// let events = [Event::put(1, 7), Event::new(1, 3), Event::new(1, 7)];
/// assert_eq!(write(2, &events)?.len(), 512);
/// assert_eq!(write(65, &events), Err(Refusal::RingSize));
/// assert_eq!(write(2, &[])?, []); // a tape too
/// assert_eq!(write(2, &[Event::get(1), Event::get(2)]), Err(Refusal::Event { place: 1 }));
/// # Ok::<(), Refusal>(())
/// ```
pub fn write(n: u64, events: &[Event]) -> Result<Vec<u8>, Refusal> {
    let list: Vec<u8> = events.iter().flat_map(|event| event.to_bytes()).collect();
    let mut tape = vec![0; BLOCK * list.len().div_ceil(EVENTS)];
    ResultSlice::of(|result| raw::ring_write(n, &list, &mut tape, result))?;
    Ok(tape)
}

/// The list of events of a tape for a ring of `n` processes; of no bytes, none.
///
/// # Errors
///
/// [`Refusal::RingSize`] unless n is 2 to 64; [`Refusal::Length`], [`Refusal::BlockCheck`], [`Refusal::BlockNumber`],
/// [`Refusal::Event`] or [`Refusal::UnusedSlot`] for the first that is wrong with the tape, block by block.
///
/// # Examples
///
/// ```
/// use vengloaz::{read, write, Event, Refusal};
///
/// let events = [Event::put(1, 7), Event::new(1, 3), Event::new(1, 7)];
/// let mut tape = write(2, &events)?;
/// assert_eq!(read(2, &tape)?, events);
/// assert_eq!(read(2, &tape[..511]), Err(Refusal::Length));
/// tape[100] ^= 1;
/// assert_eq!(read(2, &tape), Err(Refusal::BlockCheck { block: 0 }));
/// # Ok::<(), Refusal>(())
/// ```
pub fn read(n: u64, tape: &[u8]) -> Result<Vec<Event>, Refusal> {
    let mut list = vec![0; tape.len() / BLOCK * EVENTS];
    let filled = ResultSlice::of(|result| raw::ring_read(n, tape, &mut list, result))?.word(0) as usize;
    let (events, _) = list[..filled].as_chunks();
    Ok(events.iter().map(|bytes| Event::from_bytes(*bytes).expect("the tape's events were tested")).collect())
}

/// The tape of a load, which anyone can make again: `count` events for a ring of `n` processes, drawn from `seed`.
///
/// The numbers drawn are those of Park and Miller's minimal standard generator, each 16,807 times the one before modulo
/// 2,147,483,647, the first of the seed, which isn't one of them. Each event takes three: its process is the first
/// modulo n, its code the second modulo 8, its message the third where the code is 0, and else 0. So its events are the
/// first ones of every longer load of the same n and seed.
///
/// # Errors
///
/// [`Refusal::RingSize`] unless n is 2 to 64; [`Refusal::Seed`] unless the seed is 1 to 2,147,483,646;
/// [`Refusal::Length`] for a count of more than 4,128,768.
///
/// # Examples
///
/// ```
/// use vengloaz::{load, read, Event, Refusal};
///
/// let events = read(4, &load(4, 1, 63)?)?;
/// assert_eq!(events.len(), 63);
/// assert_eq!(events[0], Event::get(3)); // process 3, code 1
/// assert_eq!(events[3], Event::put(1, 1_115_438_165));
/// assert_eq!(load(4, 0, 63), Err(Refusal::Seed));
/// assert_eq!(load(4, 1, 0)?, []);
/// assert_eq!(load(4, 1, u64::MAX), Err(Refusal::Length));
/// # Ok::<(), Refusal>(())
/// ```
pub fn load(n: u64, seed: u64, count: u64) -> Result<Vec<u8>, Refusal> {
    // Too great a count is the library's to refuse, whatever the output, so it gets none for it.
    let list = if count <= MOST_EVENTS { 8 * count as usize } else { 0 };
    let mut tape = vec![0; BLOCK * list.div_ceil(EVENTS)];
    ResultSlice::of(|result| raw::ring_load(n, seed, count, &mut tape, result))?;
    Ok(tape)
}
