//! What a call answers when it isn't refused: a step's outcome and a run's counts, each with the traffic, and a
//! survey's findings.

use std::fmt;

use crate::Refusal;

/// What an event did.
#[derive(Clone, Copy, Debug, PartialEq, Eq, Hash)]
pub enum Outcome {
    /// The event wasn't possible; no byte changed.
    Idle,
    /// The event was performed, and none of the outcomes below is its.
    Moved,
    /// Main filled the envelope with this message.
    Fill(u32),
    /// Main took this message from the envelope.
    Take(u32),
    /// A put ended: the filled envelope left.
    Sent,
    /// A get ended.
    Got,
}

impl Outcome {
    /// The outcome's number, 0 to 5; of fill, take, sent and got it is the code of a ledger's record.
    pub const fn number(self) -> u8 {
        match self {
            Outcome::Idle => 0,
            Outcome::Moved => 1,
            Outcome::Fill(_) => 2,
            Outcome::Take(_) => 3,
            Outcome::Sent => 4,
            Outcome::Got => 5,
        }
    }

    /// The message of a fill or a take, else 0.
    pub const fn message(self) -> u32 {
        match self {
            Outcome::Fill(message) | Outcome::Take(message) => message,
            _ => 0,
        }
    }

    /// The outcome with this number and message: `None` above 5, and where a message has no place.
    pub(crate) const fn from_number(number: u64, message: u32) -> Option<Self> {
        match (number, message) {
            (0, 0) => Some(Outcome::Idle),
            (1, 0) => Some(Outcome::Moved),
            (2, message) => Some(Outcome::Fill(message)),
            (3, message) => Some(Outcome::Take(message)),
            (4, 0) => Some(Outcome::Sent),
            (5, 0) => Some(Outcome::Got),
            _ => None,
        }
    }

    /// The outcome's word, as ringrun prints it in a record's line.
    pub(crate) const fn word(self) -> &'static str {
        match self {
            Outcome::Idle => "idle",
            Outcome::Moved => "moved",
            Outcome::Fill(_) => "fill",
            Outcome::Take(_) => "take",
            Outcome::Sent => "sent",
            Outcome::Got => "got",
        }
    }
}

/// What went out on the links, by one event or by all events of a run.
///
/// Only put sends anything. A request is counted where it is made, and so is one that finds another for the same status
/// waiting on the link, and is absorbed by it; what a process has asked for before it doesn't ask again, and doesn't
/// count.
///
/// ```
/// use vengloaz::{fresh, step, Event, Refusal, Traffic};
///
/// let mut image = fresh(2, 0)?;
/// for event in [Event::get(1), Event::new(1, 3)] {
///     assert_eq!(step(&mut image, event)?.traffic, Traffic::default());
/// }
/// let asked = step(&mut image, Event::new(1, 7))?; // process 1 wants the full envelope
/// assert_eq!(asked.traffic, Traffic { requests: 1, departures: 0 });
/// # Ok::<(), Refusal>(())
/// ```
#[derive(Clone, Copy, Debug, Default, PartialEq, Eq, Hash)]
pub struct Traffic {
    /// Requests put on the link to the left; of one event 0 to 2.
    pub requests: u64,
    /// Times that the envelope left for the right; of one event 0 or 1.
    pub departures: u64,
}

/// What a step did.
#[derive(Clone, Copy, Debug, PartialEq, Eq, Hash)]
pub struct Stepped {
    /// What became of the event.
    pub outcome: Outcome,
    /// What it sent; nothing if it was idle.
    pub traffic: Traffic,
}

/// What a run did.
#[derive(Clone, Copy, Debug, Default, PartialEq, Eq, Hash)]
pub struct Ran {
    /// Its events, counted.
    pub counts: Counts,
    /// What all of them sent.
    pub traffic: Traffic,
}

/// The events of a run by what they did: eight counts, each of this run alone.
#[derive(Clone, Copy, Debug, Default, PartialEq, Eq, Hash)]
pub struct Counts {
    /// Puts started: events of code 0 that weren't idle.
    pub puts: u64,
    /// Gets started: events of code 1 that weren't idle.
    pub gets: u64,
    /// Events with outcome [`Outcome::Fill`].
    pub fills: u64,
    /// Events with outcome [`Outcome::Take`].
    pub takes: u64,
    /// Puts ended: events with outcome [`Outcome::Sent`].
    pub sent: u64,
    /// Gets ended: events with outcome [`Outcome::Got`].
    pub got: u64,
    /// Events with outcome [`Outcome::Idle`].
    pub idle: u64,
    /// Records in the ledger, of 12 bytes each.
    pub records: u64,
}

impl Counts {
    /// The bytes that the run wrote at the start of its ledger: 12 for each record.
    pub const fn ledger_bytes(&self) -> usize {
        12 * self.records as usize
    }
}

/// As ringrun prints them: each behind its name, and not the records.
///
/// ```
/// let counts = vengloaz::Counts { puts: 1, fills: 1, records: 1, ..Default::default() };
/// assert_eq!(counts.to_string(), "puts 1 gets 0 fills 1 takes 0 sent 0 got 0 idle 0");
/// ```
impl fmt::Display for Counts {
    fn fmt(&self, out: &mut fmt::Formatter<'_>) -> fmt::Result {
        let Counts { puts, gets, fills, takes, sent, got, idle, records: _ } = self;
        write!(out, "puts {puts} gets {gets} fills {fills} takes {takes} sent {sent} got {got} idle {idle}")
    }
}

/// What one walk over the records of an image finds, sound or not.
///
/// Flags and sets are those of the bytes as they stand, in whatever stage a process is and whatever the header counts.
#[derive(Clone, Copy, Debug, PartialEq, Eq, Hash)]
pub struct Findings {
    /// Nothing if the image is sound, else what step, run and stopped refuse it with.
    pub verdict: Result<(), Refusal>,
    /// How many have and arriving flags are set, both together, 0 to 128; 1 in a sound image.
    pub flags: u32,
    /// The processes marked for full: bit i is process i.
    pub full: u64,
    /// The processes marked for empty: bit i is process i.
    pub empty: u64,
}

impl Findings {
    /// Whether the image is sound: step, run and stopped accept it.
    pub const fn is_sound(&self) -> bool {
        self.verdict.is_ok()
    }
}
