//! The whole work, cut into pieces that two threads share. A piece draws from its own source, so that what it does
//! depends on the seed alone.

use std::fmt;
use std::sync::atomic::{AtomicUsize, Ordering};
use std::sync::Mutex;
use std::thread;

use crate::case::Case;
use crate::tally::Tally;
use crate::{buffers, crossings, lists, refusals, runs, steps, surveys, traffic, Watch, Work};
use compare::calls::Calls;
use compare::watch::Found;
use guide::Random;

/// A kind of work for one N.
type Kind = fn(&mut Watch, usize, &mut Random) -> Work<()>;

/// A piece: a kind of work and an N.
struct Piece {
    name: &'static str,
    kind: Kind,
    n: usize,
}

/// Where something was found.
pub struct Find {
    /// The kind of work, and its N.
    name: &'static str,
    n: usize,
    /// The calls of this piece before it.
    calls: u64,
    /// What was found.
    pub found: Found<Case>,
}

impl Find {
    /// The same with its case made small.
    pub fn shrunk(self, sides: &[Calls; 2]) -> Self {
        Find { found: self.found.shrunk(sides), ..self }
    }
}

impl fmt::Display for Find {
    fn fmt(&self, out: &mut fmt::Formatter<'_>) -> fmt::Result {
        write!(out, "{}, N {}, after {} calls, {}", self.name, self.n, self.calls, self.found)
    }
}

/// The kinds that come first, for each N.
fn short_kinds() -> Vec<(&'static str, Kind)> {
    vec![
        ("buffers: images", buffers::images),
        ("buffers: results", buffers::results),
        ("buffers: ledgers", buffers::ledgers),
        ("buffers: events", buffers::events),
        ("refusals: images", refusals::images),
        ("refusals: inputs", refusals::inputs),
        ("refusals: outputs", refusals::outputs),
        ("refusals: orders", refusals::orders),
        ("steps: uniform", steps::uniform),
        ("steps: guided", steps::guided),
        ("steps: unreached images", steps::unreached),
        ("steps: puts", steps::puts),
        ("steps: nearly stopped", steps::nearly_stopped),
        ("surveys: causes", surveys::causes),
        ("surveys: any bytes", surveys::any_bytes),
        ("lists: mixed", lists::mixed),
        ("runs: guided", runs::guided_runs),
        ("runs: uniform", runs::uniform_runs),
        ("runs: every count", runs::every_count),
        ("runs: no events", runs::no_events),
        ("runs: halves of 0", runs::zero_halves),
        ("traffic: requests", traffic::requests),
        ("traffic: sums", traffic::sums),
    ]
}

/// All pieces: those of N = 2, the crossings, the turned bits, then the short ones by N, the long runs by N, and the
/// longest tape.
fn pieces() -> Vec<Piece> {
    let kinds = short_kinds();
    let short = |n| kinds.iter().map(move |(name, kind)| Piece { name, kind: *kind, n });
    let long = |n| Piece { name: "runs: long", kind: runs::long, n };
    let mut pieces: Vec<Piece> = short(2).collect();
    pieces.push(long(2));
    pieces.extend([2, 3].map(|n| Piece { name: "crossings", kind: crossings::lists, n }));
    pieces.extend([2, 3, 64].map(|n| Piece { name: "surveys: every bit", kind: surveys::every_bit, n }));
    pieces.extend((3..=64).flat_map(short));
    pieces.extend((3..=64).map(long));
    pieces.push(Piece { name: "runs: longest", kind: runs::longest, n: 64 });
    pieces
}

/// Does all the work for a seed: what was exercised, and the first find in the order of the pieces, if there is one.
pub fn work(sides: [Calls; 2], seed: u64) -> (Tally, Option<Find>) {
    let pieces = pieces();
    let next = AtomicUsize::new(0);
    let all = Mutex::new((Tally::default(), None::<(usize, Find)>));
    let worker = || loop {
        let at = next.fetch_add(1, Ordering::Relaxed);
        let Some(piece) = pieces.get(at) else { return };
        let mut watch = Watch::new(sides);
        let mut random = Random::at(seed, &[at as u64]);
        let done = (piece.kind)(&mut watch, piece.n, &mut random);
        let calls = watch.tally.calls;
        let mut all = all.lock().expect("no worker fails while it adds up");
        all.0.join(watch.tally);
        if let Err(found) = done {
            next.store(pieces.len(), Ordering::Relaxed);
            let earlier = all.1.as_ref().is_some_and(|(first, _)| *first < at);
            if !earlier {
                all.1 = Some((at, Find { name: piece.name, n: piece.n, calls, found: *found }));
            }
        }
    };
    thread::scope(|scope| {
        scope.spawn(worker);
        worker();
    });
    let (tally, find) = all.into_inner().expect("no worker fails while it adds up");
    (tally, find.map(|(_, find)| find))
}
