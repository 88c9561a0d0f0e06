//! Rings of two that can move in just one way, at the last process: a stopped call must look for each.

use crate::play::Play;
use crate::Sample;

/// What alone is not idle at the end, home, and the list.
const ONE_WAY: [(&str, u64, &str); 11] = [
    ("2-fill", 1, "1.0 1.3 1.7"),
    ("2-take", 0, "0.0 0.3 0.7 0.2 0.3 0.7 1.1 1.3 1.7 0.5 0.7 1.4 1.7"),
    ("3-send-told", 1, "1.0"),
    ("3-filled-told", 1, "1.0 1.3 1.7 1.2"),
    ("3-receive-told", 1, "1.1"),
    ("3-emptied-told", 0, "0.0 0.3 0.7 0.2 0.3 0.7 1.1 1.3 1.7 0.5 0.7 1.4 1.7 1.2"),
    ("4-envelope", 0, "1.0 1.3 1.7 0.6 0.7"),
    ("5-request-for-full", 1, "0.1 0.3 0.7"),
    ("6-request-for-empty", 1, "0.0 0.3 0.7"),
    ("7-news", 1, "1.0 1.3"),
    ("7-news-of-a-stranger", 1, "0.0 0.3 0.7 1.6"),
];

pub fn samples() -> Vec<Sample> {
    let sample = |(what, home, list)| {
        let play = Play::fresh(2, home).then(list);
        Sample::new(format!("moving-{what}"), play.input())
    };
    ONE_WAY.map(sample).into()
}
