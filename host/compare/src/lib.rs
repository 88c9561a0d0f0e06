//! What the comparisons of the proved calls with the plain ones share: answers, time and instructions.
//!
//! - `calls`: the calls of a side,
//! - `case`: a call with everything lent to it, and `lent`: slices with bytes around them that nobody may change,
//! - `compare`: a case on two sides, and all that they show held against each other,
//! - `shrink`: a case on which they differ made small, and `smaller`: tapes that it tries,
//! - `watch`: case after case, what was found, and `counts`: what was exercised,
//! - `show`, `words`: bytes, events and images to be read,
//! - `tape`, `damage`: tapes in parts, and events and tapes that are refused,
//! - `link`: what an image shows of a request that crosses the envelope,
//! - `used`: the image that timed and counted calls start from.

pub mod calls;
pub mod case;
pub mod compare;
pub mod counts;
pub mod damage;
mod lent;
pub mod link;
pub mod show;
pub mod shrink;
pub mod smaller;
pub mod tape;
pub mod used;
pub mod watch;
pub mod words;

/// A number from the environment.
pub fn number(name: &str, default: u64) -> u64 {
    match std::env::var(name) {
        Ok(text) => text.parse().unwrap_or_else(|_| panic!("{name} is not a number: {text}")),
        Err(_) => default,
    }
}
