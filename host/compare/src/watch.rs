//! Makes calls on two sides at once, compares them, and counts what was exercised.

use std::fmt;

use crate::calls::Calls;
use crate::case::Case;
use crate::compare::{compare, Answer};
use crate::shrink::shrink;

/// What was exercised.
pub trait Tally: Default {
    /// The cases.
    type Case: Case;

    /// Counts a case and the answer that both sides gave.
    fn count(&mut self, case: &Self::Case, answer: &Answer);

    /// Counts a refusal for a known cause.
    fn count_refusal(&mut self, key: String);
}

/// The watch over two sides.
pub struct Watch<T> {
    /// What was exercised.
    pub tally: T,
    sides: [Calls; 2],
}

/// A case on which they differ, or on which both answer otherwise than the case was made for.
pub struct Found<C> {
    /// The case.
    pub case: C,
    /// What differs, a line each.
    lines: Vec<String>,
    /// The events of the case as it was met, before it was shrunk.
    met_with: usize,
}

/// What a part of the work comes to: nothing found, or something.
pub type Work<T, C> = Result<T, Box<Found<C>>>;

impl<T: Tally> Watch<T> {
    /// A watch over these two that has seen nothing.
    pub fn new(sides: [Calls; 2]) -> Self {
        Watch { tally: T::default(), sides }
    }

    /// Makes a call on both, and the one beside it.
    pub fn call(&mut self, case: &T::Case) -> Work<Answer, T::Case> {
        let answer = self.alone(case)?;
        if let Some(beside) = case.beside() {
            self.alone(&beside)?;
        }
        Ok(answer)
    }

    /// Makes a call on both, and no other.
    fn alone(&mut self, case: &T::Case) -> Work<Answer, T::Case> {
        let answer = compare(case, &self.sides).map_err(|lines| Found::new(case, lines))?;
        self.tally.count(case, &answer);
        Ok(answer)
    }

    /// Makes a call that must not be refused.
    pub fn accepted(&mut self, case: &T::Case) -> Work<Answer, T::Case> {
        let answer = self.call(case)?;
        match answer.number {
            0 => Ok(answer),
            number => Err(Found::new(case, vec![format!("both refuse it with {number}, made to be accepted")])),
        }
    }

    /// Makes a call that must be refused with this number and place, for this cause, and leave its output as it was.
    pub fn refused(&mut self, case: &T::Case, number: u64, place: u64, cause: &str) -> Work<(), T::Case> {
        let answer = self.call(case)?;
        let place_shown = answer.word(0).unwrap_or(place);
        if (answer.number, place_shown) != (number, place) {
            let both = format!("both answer {} at {place_shown}", answer.number);
            return Err(Found::new(case, vec![format!("{both}, made to be refused {number} at {place}: {cause}")]));
        }
        if answer.output != answer.lent {
            return Err(Found::new(case, vec![format!("both refuse it with {number}, and change its output")]));
        }
        self.tally.count_refusal(key(case.name(), number, cause));
        Ok(())
    }
}

/// The key of a refusal in the tally.
pub fn key(call: &str, number: u64, cause: &str) -> String {
    format!("{call} {number}: {cause}")
}

impl<C: Case> Found<C> {
    /// The case with what differs.
    pub fn new(case: &C, lines: Vec<String>) -> Box<Self> {
        Box::new(Found { case: case.clone(), lines, met_with: case.events() })
    }

    /// The case made as small as it can while these two differ on it, or as it is where they don't.
    pub fn shrunk(self, sides: &[Calls; 2]) -> Self {
        let case = shrink(self.case, |case| compare(case, sides).is_err());
        let lines = compare(&case, sides).err().unwrap_or(self.lines);
        Found { case, lines, met_with: self.met_with }
    }
}

impl<C: Case> fmt::Display for Found<C> {
    fn fmt(&self, out: &mut fmt::Formatter<'_>) -> fmt::Result {
        writeln!(out, "met with {} events, shrunk to {}", self.met_with, self.case.events())?;
        write!(out, "{}", self.case)?;
        self.lines.iter().try_for_each(|line| writeln!(out, "differs: {line}"))
    }
}
