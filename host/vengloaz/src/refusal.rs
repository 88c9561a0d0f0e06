//! The refusals.

use std::error::Error;
use std::fmt;

/// Why a call was turned down. The call has then changed no byte lent to it.
///
/// Its text has the number, the place, and what to look at. Further calls may bring further numbers, so a `match` needs
/// an arm for the rest.
///
/// ```
/// use vengloaz::{fresh, run, write, Event, Refusal};
///
/// let mut tape = write(2, &[Event::put(1, 7)])?;
/// tape[12] = 8; // the message's first byte, changed on the way
/// let refusal = run(&mut fresh(2, 0)?, &tape, &mut []).unwrap_err();
/// assert_eq!(refusal, Refusal::BlockCheck { block: 0 });
/// assert_eq!((refusal.number(), refusal.place()), (7, 0));
/// assert_eq!(refusal.to_string(), "refused 7 at 0: block 0 came damaged: its check isn't that of its bytes");
/// # Ok::<(), Refusal>(())
/// ```
#[derive(Clone, Copy, Debug, PartialEq, Eq, Hash)]
#[non_exhaustive]
pub enum Refusal {
    /// 1: N, given as a number, below 2 or above 64.
    RingSize,
    /// 2: home not below N.
    Home,
    /// 3: the image buffer is under 16 bytes, or under 16 + 8N for the N of 2 to 64 in its byte 0. From
    /// 16 bytes on any other byte 0 is [`Refusal::ImageUnsound`].
    ImageShort,
    /// 4: the image isn't sound.
    ImageUnsound,
    /// 5: an event isn't 8 bytes, its process isn't below N, its code is above 7, or a byte isn't
    /// zero that must be.
    Event {
        /// The event's number in its list or on its tape; 0 for a single event.
        place: u64,
    },
    /// 6: the tape or list is ragged or too long; or a load is to have more events than a tape has.
    Length,
    /// 7: a block's check differs.
    BlockCheck {
        /// The block's place on the tape, from 0.
        block: u64,
    },
    /// 8: a block's number or count differs.
    BlockNumber {
        /// The block's place on the tape, from 0.
        block: u64,
    },
    /// 9: an unused slot of a block isn't zero.
    UnusedSlot {
        /// The block's place on the tape, from 0.
        block: u64,
    },
    /// 10: the ledger is too short for the records of the run; in [`crate::raw`] also an output or a
    /// result slice.
    OutputShort,
    /// 11: the seed of a load is 0 or above 2,147,483,646.
    Seed,
}

impl Refusal {
    /// The refusal's number, from 1 on.
    pub const fn number(self) -> u8 {
        match self {
            Refusal::RingSize => 1,
            Refusal::Home => 2,
            Refusal::ImageShort => 3,
            Refusal::ImageUnsound => 4,
            Refusal::Event { .. } => 5,
            Refusal::Length => 6,
            Refusal::BlockCheck { .. } => 7,
            Refusal::BlockNumber { .. } => 8,
            Refusal::UnusedSlot { .. } => 9,
            Refusal::OutputShort => 10,
            Refusal::Seed => 11,
        }
    }

    /// Where: 5 has the number of the event, 7 to 9 that of the block; the others have 0.
    pub const fn place(self) -> u64 {
        match self {
            Refusal::Event { place } => place,
            Refusal::BlockCheck { block } | Refusal::BlockNumber { block } | Refusal::UnusedSlot { block } => block,
            _ => 0,
        }
    }

    /// The refusal with this number and place, of which those that have place 0 take none. `None` if no refusal has
    /// the number.
    pub const fn from_number(number: u64, place: u64) -> Option<Self> {
        Some(match number {
            1 => Refusal::RingSize,
            2 => Refusal::Home,
            3 => Refusal::ImageShort,
            4 => Refusal::ImageUnsound,
            5 => Refusal::Event { place },
            6 => Refusal::Length,
            7 => Refusal::BlockCheck { block: place },
            8 => Refusal::BlockNumber { block: place },
            9 => Refusal::UnusedSlot { block: place },
            10 => Refusal::OutputShort,
            11 => Refusal::Seed,
            _ => return None,
        })
    }
}

/// `refused R at P`, then what to look at.
impl fmt::Display for Refusal {
    fn fmt(&self, out: &mut fmt::Formatter<'_>) -> fmt::Result {
        write!(out, "refused {} at {}: ", self.number(), self.place())?;
        match self {
            Refusal::RingSize => write!(out, "N is not 2 to 64"),
            Refusal::Home => write!(out, "home is not below N"),
            Refusal::ImageShort => write!(out, "the image has under 16 bytes, or under 16 + 8N for its byte 0, N"),
            Refusal::ImageUnsound => write!(out, "the image is not sound: what wrote to it beside these calls?"),
            Refusal::Event { place } => write!(
                out,
                "event {place} is none of this ring: it has 8 bytes, a process below N, a code up to 7, zeros in bytes \
                 2 and 3, and a message only with code 0"
            ),
            Refusal::Length => write!(
                out,
                "the length is wrong: a tape has up to 65536 whole blocks of 512 bytes, a list or load up to 4128768 \
                 events of 8 bytes, and ringrun takes up to 64 blocks"
            ),
            Refusal::BlockCheck { block } => {
                write!(out, "block {block} came damaged: its check isn't that of its bytes")
            }
            Refusal::BlockNumber { block } => write!(
                out,
                "block {block} has another number in bytes 0 and 1, or in bytes 2 and 3 a count that is not 63 (in the \
                 last block 1 to 63)"
            ),
            Refusal::UnusedSlot { block } => write!(out, "block {block} has bytes other than 0 behind its last event"),
            Refusal::OutputShort => {
                write!(out, "the ledger, output or result slice is too short: a record has 12 bytes, a result 80")
            }
            Refusal::Seed => write!(out, "the seed is not 1 to 2147483646"),
        }
    }
}

impl Error for Refusal {}
