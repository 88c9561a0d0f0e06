//! Performs a case on two sides and compares all that they show: the returned number, every byte lent, the result
//! slice, and the bytes around each of them.

use crate::calls::Calls;
use crate::case::{Case, Loan, Slices};
use crate::lent::Lent;

/// All that a call shows.
pub struct Answer {
    /// The returned number.
    pub number: u64,
    /// The image afterwards.
    pub image: Vec<u8>,
    /// What was lent to be read, afterwards.
    pub input: Vec<u8>,
    /// The output as it was lent, and afterwards.
    pub lent: Vec<u8>,
    pub output: Vec<u8>,
    /// The result slice afterwards.
    pub result: Vec<u8>,
    /// Whether the bytes around all of them are as they were.
    pub around_kept: bool,
}

impl Answer {
    /// A word of the result slice, where it has 80 bytes.
    pub fn word(&self, index: usize) -> Option<u64> {
        let words = self.result.get(..80)?;
        words[8 * index..].first_chunk().map(|bytes| u64::from_le_bytes(*bytes))
    }
}

/// Performs a case on both: the answer that both give, or what differs between them.
pub fn compare<C: Case>(case: &C, sides: &[Calls; 2]) -> Result<Answer, Vec<String>> {
    let loan = case.loan();
    let [x, y] = sides;
    let (a, b) = (perform(case, x, &loan), perform(case, y, &loan));
    let lines = differences::<C>(&loan.input, (x.name, &a), (y.name, &b));
    if lines.is_empty() {
        Ok(a)
    } else {
        Err(lines)
    }
}

/// Performs a case on one side, with all its slices as far from where they would be aligned as one another.
fn perform<C: Case>(case: &C, side: &Calls, loan: &Loan) -> Answer {
    let further = further(loan);
    let mut image = Lent::copy(loan.image, further);
    let mut input = Lent::copy(&loan.input, further);
    let mut output = Lent::pattern(loan.output, further);
    let mut result = Lent::pattern(loan.result, further);
    let lent = output.slice().to_vec();
    let slices = Slices { image: image.slice(), input: input.slice(), output: output.slice(), result: result.slice() };
    let number = case.call(side, slices);
    let backs = [image, input, output, result].map(Lent::back);
    let around_kept = backs.iter().all(|back| back.around_kept);
    let [image, input, output, result] = backs.map(|back| back.bytes);
    Answer { number, image, input, lent, output, result, around_kept }
}

/// How far a call's slices are from where they would be aligned: 0 to 7, by what is lent.
fn further(loan: &Loan) -> usize {
    let first: usize = loan.input.iter().take(16).map(|byte| usize::from(*byte)).sum();
    (first + loan.image.len() + loan.output + loan.result) % 8
}

/// What differs, a line each; nothing if the answers are the same and neither wrote where it may not.
fn differences<C: Case>(input: &[u8], (x, a): (&str, &Answer), (y, b): (&str, &Answer)) -> Vec<String> {
    let mut lines = Vec::new();
    if a.number != b.number {
        lines.push(format!("number: {} ({x}), {} ({y})", a.number, b.number));
    }
    lines.extend(byte_lines("image", (x, &a.image), (y, &b.image)));
    lines.extend(byte_lines(C::OUTPUT, (x, &a.output), (y, &b.output)));
    lines.extend(byte_lines("result", (x, &a.result), (y, &b.result)));
    for (name, answer) in [(x, a), (y, b)] {
        lines.extend(byte_lines(C::INPUT, (name, &answer.input), ("lent", input)));
        if !answer.around_kept {
            lines.push(format!("bytes around the lent slices changed ({name})"));
        }
    }
    lines
}

/// A line for each byte that differs between two named buffers, and a last one for those after the tenth.
fn byte_lines(buffer: &str, (x, a): (&str, &[u8]), (y, b): (&str, &[u8])) -> Vec<String> {
    if a == b {
        return Vec::new();
    }
    let pairs = a.iter().zip(b).enumerate();
    let differing: Vec<_> = pairs.filter(|(_, (of_a, of_b))| of_a != of_b).collect();
    let line =
        |(k, (of_a, of_b)): &(usize, (&u8, &u8))| format!("{buffer} byte {k}: {of_a:02x} ({x}), {of_b:02x} ({y})");
    let mut lines: Vec<String> = differing.iter().take(10).map(line).collect();
    if differing.len() > 10 {
        lines.push(format!("{buffer}: {} further bytes", differing.len() - 10));
    }
    lines
}
