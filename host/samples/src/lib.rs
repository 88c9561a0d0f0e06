//! Every sample of the folder `samples` in the repository's root: its name and its input, made here
//! and nowhere else.
//!
//! The expected text of a sample is none of this package's business: it is `plain::report` of the
//! input. One module a group, the first word of its samples' names:
//!
//! - `entries`: document 01's entries, and the mirror image of entry 10,
//! - `crossings`: every list in which a request crosses the envelope,
//! - `moving`: rings that can move in just one way,
//! - `rules`: rules that are easily overlooked,
//! - `refusals`: each refusal of ringrun by each of its causes,
//! - `orders`: two faults at once, of which the first in document 01's order is named,
//! - `sizes`: the least and the greatest of everything,
//! - `loads`: lists drawn from a seed.

pub mod crossing_lists;
pub mod crossings;
mod damage;
mod entries;
mod loads;
mod moving;
mod orders;
mod play;
mod refusals;
mod rules;
mod sizes;

use std::path::PathBuf;

/// One input of ringrun.
pub struct Sample {
    /// The name of its files, but for `.in` and `.out`.
    pub name: String,
    pub input: Vec<u8>,
}

impl Sample {
    fn new(name: impl Into<String>, input: Vec<u8>) -> Sample {
        Sample { name: name.into(), input }
    }
}

/// Every sample.
pub fn all() -> Vec<Sample> {
    let groups = [
        entries::samples,
        crossings::samples,
        moving::samples,
        rules::samples,
        refusals::samples,
        orders::samples,
        sizes::samples,
        loads::samples,
    ];
    groups.into_iter().flat_map(|samples| samples()).collect()
}

/// The folder with their files.
pub fn folder() -> PathBuf {
    PathBuf::from(concat!(env!("CARGO_MANIFEST_DIR"), "/../../samples"))
}
