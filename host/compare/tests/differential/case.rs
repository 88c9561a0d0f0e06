//! One call with everything lent to it, and how it is shown.

use std::fmt;

use crate::image::size;
use crate::shrink::WAYS;
use compare::calls::Calls;
use compare::case::{Case as _, Loan, Slices};
use compare::show::{dotted, hex, listed};
use compare::shrink::Way;
use compare::tape::Tape;
use compare::words::in_words;

/// A call, without the image and the result slice.
#[derive(Clone, PartialEq, Debug)]
pub enum Call {
    /// Step with these bytes as the event.
    Step {
        /// The event's bytes.
        event: Vec<u8>,
    },
    /// Run of this tape.
    Run {
        /// The tape.
        tape: Tape,
        /// The ledger's length in bytes.
        ledger: usize,
    },
    /// Stopped.
    Stopped,
    /// Survey.
    Survey,
}

/// A call with the image and the length of the result slice.
#[derive(Clone, PartialEq, Debug)]
pub struct Case {
    /// The image's buffer.
    pub image: Vec<u8>,
    /// The call.
    pub call: Call,
    /// The result slice's length in bytes.
    pub result: usize,
}

impl Case {
    /// A step.
    pub fn step(image: Vec<u8>, event: &[u8], result: usize) -> Self {
        let event = event.to_vec();
        Case { image, call: Call::Step { event }, result }
    }

    /// A run.
    pub fn run(image: Vec<u8>, tape: Tape, ledger: usize, result: usize) -> Self {
        Case { image, call: Call::Run { tape, ledger }, result }
    }

    /// A stopped call.
    pub fn stopped(image: Vec<u8>, result: usize) -> Self {
        Case { image, call: Call::Stopped, result }
    }

    /// A survey.
    pub fn survey(image: Vec<u8>, result: usize) -> Self {
        Case { image, call: Call::Survey, result }
    }

    /// The length of the ledger.
    pub fn ledger(&self) -> usize {
        match self.call {
            Call::Run { ledger, .. } => ledger,
            _ => 0,
        }
    }
}

impl compare::case::Case for Case {
    const INPUT: &'static str = "event or tape";
    const OUTPUT: &'static str = "ledger";
    const WAYS: &'static [Way<Case>] = &WAYS;

    fn name(&self) -> &'static str {
        match self.call {
            Call::Step { .. } => "step",
            Call::Run { .. } => "run",
            Call::Stopped => "stopped",
            Call::Survey => "survey",
        }
    }

    fn events(&self) -> usize {
        match &self.call {
            Call::Step { .. } => 1,
            Call::Run { tape, .. } => tape.event_count(),
            Call::Stopped | Call::Survey => 0,
        }
    }

    fn loan(&self) -> Loan<'_> {
        let input = match &self.call {
            Call::Step { event } => event.clone(),
            Call::Run { tape, .. } => tape.bytes(),
            Call::Stopped | Call::Survey => Vec::new(),
        };
        Loan { image: &self.image, input, output: self.ledger(), result: self.result }
    }

    fn call(&self, side: &Calls, Slices { image, input, output, result }: Slices) -> u64 {
        match self.call {
            Call::Step { .. } => (side.step)(image, input, result),
            Call::Run { .. } => (side.run)(image, input, output, result),
            Call::Stopped => (side.stopped)(image, result),
            Call::Survey => (side.survey)(image, result),
        }
    }

    /// Every image that another call gets is surveyed, with a result slice of the same length.
    fn beside(&self) -> Option<Self> {
        (self.call != Call::Survey).then(|| Case::survey(self.image.clone(), self.result))
    }
}

impl fmt::Display for Case {
    fn fmt(&self, out: &mut fmt::Formatter<'_>) -> fmt::Result {
        let (bytes, result) = (self.image.len(), self.result);
        writeln!(out, "{}, image {bytes} bytes, result {result} bytes", self.name())?;
        writeln!(out, "image:  {}", hex(&self.image))?;
        for line in size(&self.image).map_or(Vec::new(), |n| in_words(&self.image, n)) {
            writeln!(out, "        {line}")?;
        }
        match &self.call {
            Call::Step { event } => {
                writeln!(out, "event:  {} = {}", hex(event), dotted(event))
            }
            Call::Run { tape, ledger } => {
                writeln!(out, "ledger: {ledger} bytes")?;
                writeln!(out, "events: {}", listed(&tape.events()))?;
                writeln!(out, "tape:   {}", hex(&tape.bytes()))
            }
            Call::Stopped | Call::Survey => Ok(()),
        }
    }
}
