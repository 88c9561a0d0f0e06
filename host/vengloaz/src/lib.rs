//! A ring of 2 to 64 processes with one envelope, as a reference to hold emulator cores against.
//!
//! The package calls a proved library and adds nothing to it but types: [`fresh`] makes the image of a
//! fresh ring, [`step`] performs one event on an image, [`run`] performs a tape of them and writes a
//! ledger, both of which tell their [`Traffic`] too, [`stopped`] tells whether the ring can still move by
//! itself, [`survey`] what an image holds, sound or not, [`write()`] makes a tape of a list of events,
//! [`read`] the list of a tape, and [`load`] a tape of events drawn from a seed. An image, a tape and a
//! ledger are bytes, laid out as `docs/FORMATS.md` of the repository says. Every call answers with a
//! result or a [`Refusal`], for all bytes; a refused call leaves every byte lent to it as it was.
//!
//! # A core's ledger held against the reference's
//!
//! Two processes, the envelope at process 0. Process 1 puts the message 7, process 0 gets it.
//!
//! ```
//! use vengloaz::{first_difference, fresh, records, run, stopped, write, Event};
//!
//! let list = "1.0(7) 1.3 1.7 \
//!             0.6 0.7 1.4 1.7 1.2 1.3 1.7 \
//!             0.1 0.3 0.7 \
//!             1.5 1.7 0.4 0.7 0.2 0.3 0.7";
//! // 1 wishes to put, and asks its left for the empty envelope;
//! // 0 hears that and forwards it, it arrives at 1, which fills it; nobody has asked for it full;
//! // 0 wishes to get, and asks for the full envelope;
//! // 1 hears that and the envelope leaves: the put has ended. 0 takes the message: the get has ended.
//! let events = list.split(' ').map(str::parse).collect::<Result<Vec<Event>, _>>()?;
//! let tape = write(2, &events)?;
//!
//! let mut image = fresh(2, 0)?;
//! let mut ledger = vec![0; 12 * events.len()];
//! let ran = run(&mut image, &tape, &mut ledger)?;
//! let ledger = &ledger[..ran.counts.ledger_bytes()];
//! let lines: Vec<String> = records(ledger).map(|record| record.to_string()).collect();
//! assert_eq!(lines, ["7 1 fill 7", "14 1 sent 0", "17 0 take 7", "19 0 got 0"]);
//! assert!(stopped(&image)?);
//! assert_eq!((ran.traffic.requests, ran.traffic.departures), (2, 2)); // a core's links had as much to carry
//!
//! // A core that has sent one event too early.
//! let mut core = ledger.to_vec();
//! core[12] = 13;
//! let difference = first_difference(ledger, &core).unwrap();
//! assert_eq!(difference.to_string(), "record 1: reference 14 1 sent 0, core 13 1 sent 0");
//! # Ok::<(), Box<dyn std::error::Error>>(())
//! ```
//!
//! `examples/core_ledger.rs` is a whole comparison, from files to the exit status.
//!
//! # Building
//!
//! The proved library is two archives: `libring_host.a` has step, run and stopped, `libring_tools.a`
//! fresh ring, survey, writer, reader and load. `make archives` in the repository's root proves and makes both,
//! in `target/staticlib`, where the build script looks for them. If they lie elsewhere, the environment
//! variable `RING_HOST_DIR` names their directory; a relative one counts from the repository's `host/`,
//! wherever cargo is started. An archive that is older than the crates' sources is an error.
//!
//! The feature `proved`, on by default, links them. Without it there are no calls, but all the rest:
//! `default-features = false` for a program that only reads and compares events and ledgers, and
//! `cargo doc --no-default-features` for these pages, need no archive.

#![deny(missing_docs)]
#![deny(unsafe_code)]

mod answer;
#[cfg(any(feature = "proved", doc))]
mod calls;
mod event;
mod ledger;
#[cfg(any(feature = "proved", doc))]
pub mod raw;
mod refusal;
#[cfg(any(feature = "proved", doc))]
mod result_slice;

pub use answer::{Counts, Findings, Outcome, Ran, Stepped, Traffic};
#[cfg(any(feature = "proved", doc))]
pub use calls::{fresh, load, read, run, step, stopped, survey, write};
pub use event::{Event, ParseEventError};
pub use ledger::{first_difference, records, Difference, Record, Records};
pub use refusal::Refusal;

/// The example of the repository's README, compiled with the examples here.
#[cfg(doctest)]
#[doc = include_str!("../../../README.md")]
struct Readme;
