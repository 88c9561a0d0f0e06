//! The program ringrun ("The program ringrun reads .."): its text for the whole of its input.
//!
//! The one module here with a heap: the length of a text isn't known beforehand, so the caller gets
//! it as a `Vec`.

use crate::answer::{Refusal, LEAST_RESULT};
use crate::image::MOST_SIZE;
use crate::{fresh, stopped, whole_run};

/// The most blocks that ringrun takes, and the bytes of a ledger with room for all their events.
const MOST_BLOCKS: usize = 64;
const LEDGER: usize = 12 * 63 * MOST_BLOCKS;

/// The words for a record's codes 2 to 5, and for the counts.
const RECORDED: [&str; 4] = ["fill", "take", "sent", "got"];
const COUNTED: [&str; 7] = ["puts", "gets", "fills", "takes", "sent", "got", "idle"];

/// The text that ringrun prints for its whole standard input.
pub fn text<const FAULT: u8>(input: &[u8]) -> Vec<u8> {
    let mut ledger = [0; LEDGER];
    let text = match played::<FAULT>(input, &mut ledger) {
        Ok(end) => end.text(&ledger),
        Err(Refusal { number, place }) => format!("refused {number} at {place}\n"),
    };
    text.into_bytes()
}

/// What a run from the fresh ring gives beside its ledger: its words, of which the text has some, and
/// whether the ring is then stopped.
struct End {
    run: [u64; 10],
    stopped: bool,
}

/// Runs the input's blocks from its fresh ring, or gives the first refusal: 1, 2, more blocks than
/// ringrun takes, then those of the run.
fn played<const FAULT: u8>(input: &[u8], ledger: &mut [u8]) -> Result<End, Refusal> {
    let (n, home, tape) = parts(input);
    let mut image = [0; 16 + 8 * MOST_SIZE as usize];
    fresh(n, home, &mut image, LEAST_RESULT)?;
    if tape.len() > 512 * MOST_BLOCKS {
        return Err(Refusal { number: 6, place: 0 });
    }
    let run = whole_run::<FAULT>(&mut image, tape, ledger, LEAST_RESULT)?;
    let [yes] = stopped::<FAULT>(&image, LEAST_RESULT)?;
    Ok(End { run, stopped: yes == 1 })
}

/// N, home and the tape; where N or home is missing it is 0.
fn parts(input: &[u8]) -> (u64, u64, &[u8]) {
    match input {
        [] => (0, 0, &[]),
        [n] => (u64::from(*n), 0, &[]),
        [n, home, tape @ ..] => (u64::from(*n), u64::from(*home), tape),
    }
}

impl End {
    /// A line for each record, the counts but that of the records, then stopped or moving; no traffic.
    fn text(&self, ledger: &[u8]) -> String {
        let [.., records, _, _] = self.run;
        let (ledger, _) = ledger.as_chunks::<12>();
        let mut text: String = ledger[..records as usize].iter().map(line).collect();
        let counts = COUNTED.iter().zip(self.run).map(|(name, count)| format!("{name} {count}"));
        text += &counts.collect::<Vec<String>>().join(" ");
        text + if self.stopped { "\nstopped\n" } else { "\nmoving\n" }
    }
}

/// The line of a record: event, process, what it did, message.
fn line(record: &[u8; 12]) -> String {
    let [e0, e1, e2, e3, process, code, _, _, m0, m1, m2, m3] = *record;
    let event = u32::from_le_bytes([e0, e1, e2, e3]);
    let message = u32::from_le_bytes([m0, m1, m2, m3]);
    format!("{event} {process} {} {message}\n", RECORDED[usize::from(code) - 2])
}
