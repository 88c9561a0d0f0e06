//! A call with everything lent to it, as the comparison, the shrinker and the reports know it.

use std::fmt;

use crate::calls::Calls;
use crate::shrink::Way;

/// A call with everything lent to it. Its text is what a report shows.
pub trait Case: Clone + PartialEq + fmt::Display + 'static {
    /// What to call the input and the output in a report.
    const INPUT: &'static str;
    const OUTPUT: &'static str;

    /// The ways to make one smaller, in the order in which they are tried.
    const WAYS: &'static [Way<Self>];

    /// The call's name.
    fn name(&self) -> &'static str;

    /// The events of the call.
    fn events(&self) -> usize;

    /// What is lent to it.
    fn loan(&self) -> Loan<'_>;

    /// Makes the call on one side, and gives the returned number.
    fn call(&self, side: &Calls, lent: Slices) -> u64;

    /// A call that is made on the same bytes whenever this one is, if there is one.
    fn beside(&self) -> Option<Self> {
        None
    }
}

/// What is lent to a call; what it doesn't have is empty.
pub struct Loan<'a> {
    /// The image's bytes.
    pub image: &'a [u8],
    /// The bytes of what is only read: event, tape or list.
    pub input: Vec<u8>,
    /// The length of what is only written: ledger, tape, list or fresh ring.
    pub output: usize,
    /// The length of the result slice.
    pub result: usize,
}

/// The lent slices themselves.
pub struct Slices<'a> {
    pub image: &'a mut [u8],
    pub input: &'a [u8],
    pub output: &'a mut [u8],
    pub result: &'a mut [u8],
}
