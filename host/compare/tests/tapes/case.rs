//! One call of fresh ring, writer, reader or load with everything lent to it, and how it is shown.

use std::fmt;

use crate::shrink::WAYS;
use compare::calls::Calls;
use compare::case::{Case as _, Loan, Slices};
use compare::show::{hex, listed};
use compare::shrink::Way;
use compare::tape::{Tape, MOST_EVENTS};

/// A call, without N, the output and the result slice.
#[derive(Clone, PartialEq)]
pub enum Call {
    /// The fresh ring with this home; its image is the output.
    Fresh(u64),
    /// The writer with these bytes as its list.
    Write(Vec<u8>),
    /// The reader with this tape.
    Read(Tape),
    /// A load with this seed and this count.
    Load(u64, u64),
}

/// A call with the lengths of its output and result slice.
#[derive(Clone, PartialEq)]
pub struct Case {
    /// N.
    pub n: u64,
    /// The call.
    pub call: Call,
    /// The output's length in bytes.
    pub output: usize,
    /// The result slice's length in bytes.
    pub result: usize,
}

impl compare::case::Case for Case {
    const INPUT: &'static str = "list or tape";
    const OUTPUT: &'static str = "output";
    const WAYS: &'static [Way<Case>] = &WAYS;

    fn name(&self) -> &'static str {
        match self.call {
            Call::Fresh(_) => "fresh",
            Call::Write(_) => "write",
            Call::Read(_) => "read",
            Call::Load(..) => "load",
        }
    }

    fn events(&self) -> usize {
        match &self.call {
            Call::Fresh(_) => 0,
            Call::Write(list) => list.len() / 8,
            Call::Read(tape) => tape.event_count(),
            Call::Load(_, count) => usize::try_from(*count).ok().filter(|count| *count <= MOST_EVENTS).unwrap_or(0),
        }
    }

    fn loan(&self) -> Loan<'_> {
        let input = match &self.call {
            Call::Fresh(_) | Call::Load(..) => Vec::new(),
            Call::Write(list) => list.clone(),
            Call::Read(tape) => tape.bytes(),
        };
        Loan { image: &[], input, output: self.output, result: self.result }
    }

    fn call(&self, side: &Calls, Slices { input, output, result, .. }: Slices) -> u64 {
        match self.call {
            Call::Fresh(home) => (side.fresh)(self.n, home, output, result),
            Call::Write(_) => (side.write)(self.n, input, output, result),
            Call::Read(_) => (side.read)(self.n, input, output, result),
            Call::Load(seed, count) => (side.load)(self.n, seed, count, output, result),
        }
    }
}

impl fmt::Display for Case {
    fn fmt(&self, out: &mut fmt::Formatter<'_>) -> fmt::Result {
        let Case { n, output, result, .. } = self;
        writeln!(out, "{}, N {n}, output {output} bytes, result {result} bytes", self.name())?;
        match &self.call {
            Call::Fresh(home) => writeln!(out, "home:   {home}"),
            Call::Write(list) => {
                writeln!(out, "events: {}", listed(list.as_chunks().0))?;
                writeln!(out, "list:   {}", hex(list))
            }
            Call::Read(tape) => {
                writeln!(out, "events: {}", listed(&tape.events()))?;
                writeln!(out, "tape:   {}", hex(&tape.bytes()))
            }
            Call::Load(seed, count) => writeln!(out, "seed:   {seed}\ncount:  {count}"),
        }
    }
}
