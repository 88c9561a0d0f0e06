//! Every list in which a request crosses the envelope on a link, each continued by rounds.

use crate::crossing_lists::{Crossing, Way, CROSSINGS, FULL};
use crate::play::Play;
use crate::Sample;

/// A sample for each list, under the name of its first line.
pub fn samples() -> Vec<Sample> {
    let sample = |lines: Vec<&Crossing>| {
        let play = Play::fresh(lines[0].n, 0).then(lines[0].list);
        Sample::new(name(lines[0]), play.rounds().input())
    };
    shared().into_iter().map(sample).collect()
}

/// The lines of the lists, those together that have the same list for the same N.
pub fn shared() -> Vec<Vec<&'static Crossing>> {
    let same = |one: &Crossing, other: &Crossing| (one.n, one.list) == (other.n, other.list);
    let mut shared: Vec<Vec<&Crossing>> = Vec::new();
    for line in lines() {
        match shared.iter_mut().find(|lines| same(lines[0], line)) {
            Some(lines) => lines.push(line),
            None => shared.push(vec![line]),
        }
    }
    shared
}

/// Every line: first those by the way to begin, then the further kinds, then the shortest of each kind.
fn lines() -> Vec<&'static Crossing> {
    let is_shortest = |line: &&Crossing| matches!(line.way, Way::Shortest(_));
    let (shortest, by_way): (Vec<_>, Vec<_>) = CROSSINGS.iter().partition(is_shortest);
    [by_way, shortest].concat()
}

/// The name of a line.
pub fn name(line: &Crossing) -> String {
    let Crossing { n, request, envelope, .. } = *line;
    let [request, envelope] = [request, envelope].map(|status| if status == FULL { "full" } else { "empty" });
    let way = match line.way {
        Way::Both => return format!("crossing-n{n}-both-meet-{envelope}"),
        Way::Shortest(_) => "shortest",
        Way::Leaves => "leaves",
        Way::Asks => "asks",
        Way::Old => "old",
        Way::OwnWish => "wished",
        Way::NotOwnWish => "unwished",
    };
    format!("crossing-n{n}-{request}-meets-{envelope}-{way}")
}
