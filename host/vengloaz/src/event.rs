//! An event, its 8 bytes and its text.

use std::error::Error;
use std::fmt;
use std::str::FromStr;

/// An event: what one thread of one process does next.
///
/// | code | event |
/// |---|---|
/// | 0 | main wishes to put, and tells the message |
/// | 1 | main wishes to get |
/// | 2 | main works: it fills the envelope, or takes the message from it |
/// | 3 | get takes main's signal |
/// | 4 | get takes the envelope from the link |
/// | 5, 6 | get takes the request for a full, an empty envelope from the link |
/// | 7 | put does what its news ask for |
///
/// Any values may be given: the calls refuse a process not below N, a code above 7, and a message
/// other than 0 with a code other than 0.
///
/// Its text is `process.code`, with the message in parentheses where the code is 0:
///
/// ```
/// use vengloaz::Event;
///
/// let event: Event = "1.0(7)".parse()?;
/// assert_eq!(event, Event::put(1, 7));
/// assert_eq!(event.to_bytes(), [1, 0, 0, 0, 7, 0, 0, 0]);
/// assert_eq!(Event::from_bytes([1, 0, 0, 0, 7, 0, 0, 0]), Some(event));
/// assert_eq!(event.to_string(), "1.0(7)");
///
/// let list: Result<Vec<Event>, _> = "1.0(7) 1.3 1.7".split(' ').map(str::parse).collect();
/// assert_eq!(list?, [event, Event::new(1, 3), Event::new(1, 7)]);
/// # Ok::<(), vengloaz::ParseEventError>(())
/// ```
#[derive(Clone, Copy, Debug, PartialEq, Eq, Hash)]
pub struct Event {
    /// The process, from 0.
    pub process: u8,
    /// The code, 0 to 7.
    pub code: u8,
    /// The message to send with code 0, else 0.
    pub message: u32,
}

impl Event {
    /// The event of this process and code, with message 0.
    pub const fn new(process: u8, code: u8) -> Self {
        Event { process, code, message: 0 }
    }

    /// Event 0: main wishes to put this message.
    pub const fn put(process: u8, message: u32) -> Self {
        Event { process, code: 0, message }
    }

    /// Event 1: main wishes to get.
    pub const fn get(process: u8) -> Self {
        Event::new(process, 1)
    }

    /// The 8 bytes of the event: process, code, two zeros, message.
    pub const fn to_bytes(self) -> [u8; 8] {
        let [m0, m1, m2, m3] = self.message.to_le_bytes();
        [self.process, self.code, 0, 0, m0, m1, m2, m3]
    }

    /// The event that these 8 bytes are; `None` if one of the two bytes in their middle isn't zero.
    pub const fn from_bytes(bytes: [u8; 8]) -> Option<Self> {
        let [process, code, 0, 0, m0, m1, m2, m3] = bytes else {
            return None;
        };
        Some(Event { process, code, message: u32::from_le_bytes([m0, m1, m2, m3]) })
    }
}

/// `process.code`, with the message in parentheses where the code is 0 or the message isn't.
impl fmt::Display for Event {
    fn fmt(&self, out: &mut fmt::Formatter<'_>) -> fmt::Result {
        write!(out, "{}.{}", self.process, self.code)?;
        if self.code == 0 || self.message != 0 {
            write!(out, "({})", self.message)?;
        }
        Ok(())
    }
}

/// `process.code`, in decimal, and the message in parentheses with code 0 and with no other. Whether the process is
/// below N and the code known is left to the calls.
impl FromStr for Event {
    type Err = ParseEventError;

    fn from_str(word: &str) -> Result<Self, ParseEventError> {
        read(word).map_err(|fault| ParseEventError { word: word.to_string(), fault })
    }
}

/// A text that isn't an event's. It says what is wrong, and with which text.
///
/// ```
/// use vengloaz::Event;
///
/// let error = "1.0".parse::<Event>().unwrap_err();
/// assert_eq!(error.to_string(), "1.0 has no message: code 0 is written like 1.0(7)");
/// ```
#[derive(Clone, Debug, PartialEq, Eq)]
pub struct ParseEventError {
    word: String,
    fault: Fault,
}

impl Error for ParseEventError {}

#[derive(Clone, Copy, Debug, PartialEq, Eq)]
enum Fault {
    Form,
    Process,
    Code,
    Message,
    NoMessage,
    StrayMessage,
}

impl fmt::Display for ParseEventError {
    fn fmt(&self, out: &mut fmt::Formatter<'_>) -> fmt::Result {
        let word = &self.word;
        match self.fault {
            Fault::Form => write!(out, "{word} is no event like 1.3 or 1.0(7)"),
            Fault::Process => write!(out, "the process of {word} is above {}", u8::MAX),
            Fault::Code => write!(out, "the code of {word} is above {}", u8::MAX),
            Fault::Message => write!(out, "the message of {word} is above {}", u32::MAX),
            Fault::NoMessage => write!(out, "{word} has no message: code 0 is written like 1.0(7)"),
            Fault::StrayMessage => write!(out, "{word} has a message, which only code 0 has"),
        }
    }
}

/// The event of a word.
fn read(word: &str) -> Result<Event, Fault> {
    let (process, code, message) = parts(word).ok_or(Fault::Form)?;
    let process = number(process, Fault::Process)?;
    let code = number(code, Fault::Code)?;
    let message = match (code, message) {
        (0, None) => return Err(Fault::NoMessage),
        (0, Some(message)) => number(message, Fault::Message)?,
        (_, None) => 0,
        (_, Some(_)) => return Err(Fault::StrayMessage),
    };
    Ok(Event { process, code, message })
}

/// The digits of process, code and, if there are parentheses, message.
fn parts(word: &str) -> Option<(&str, &str, Option<&str>)> {
    let (process, rest) = word.split_once('.')?;
    let (code, message) = match rest.split_once('(') {
        Some((code, message)) => (code, Some(message.strip_suffix(')')?)),
        None => (rest, None),
    };
    let decimal = |digits: &str| !digits.is_empty() && digits.bytes().all(|byte| byte.is_ascii_digit());
    (decimal(process) && decimal(code) && message.is_none_or(decimal)).then_some((process, code, message))
}

/// A number of digits, which may be too great for its field.
fn number<T: FromStr>(digits: &str, too_great: Fault) -> Result<T, Fault> {
    digits.parse().map_err(|_| too_great)
}
