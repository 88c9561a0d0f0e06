//! Rules that are easily overlooked: lists whose text is another one where the rule isn't kept.

use crate::play::Play;
use crate::Sample;

pub fn samples() -> Vec<Sample> {
    let all = [
        ("absorbed-n2", Play::fresh(2, 0).then(ABSORBED_2)),
        ("absorbed-n3", Play::fresh(3, 0).then(ABSORBED_3)),
        ("clear-then-forward-n2", Play::fresh(2, 0).then(CLEAR_THEN_FORWARD)),
        ("mark-once-n3", marked_twice()),
    ];
    all.map(|(rule, play)| Sample::new(format!("rule-{rule}"), play.input())).into()
}

/// A request that one on the link absorbs counts as made: so none is on the link again, and the last
/// event is idle. The shortest lists that show it.
const ABSORBED_2: &str = "0.1 0.3 1.0 1.3 1.7 0.6 0.7 1.4 1.7 1.2 1.3 1.7 1.0 1.3 1.7 0.6 0.7 0.4 0.7 \
                          0.2 0.3 0.7 0.1 0.3 0.7 1.5 1.7 0.5 0.7 1.5";
const ABSORBED_3: &str = "0.0 1.0 1.3 1.7 0.6 0.7 0.3 0.7 2.1 2.3 2.6 2.7 1.5 1.7 1.4 1.7 1.2 1.3 1.7 \
                          1.1 1.3 1.7 0.5 1.6 1.7 0.5";

/// A put that ends clears its marker first, then forwards: so the marker that it finds asked for is set
/// again, and the last event is sent. The shortest list that shows it.
const CLEAR_THEN_FORWARD: &str = "0.1 1.0 1.3 1.7 0.6 0.7 0.3 0.7 1.5 1.7 0.5 1.4 1.7 1.2 1.3 1.7 0.4 \
                                  0.7 0.2 0.3 1.0 1.3 1.7 0.6 0.7 1.4 1.7 1.2 1.3 1.7";

/// Put meets the envelope twice at a process that it has marked, and counts it once: so after two gets
/// no mark is left, and a third message waits for a get.
fn marked_twice() -> Play {
    let twice = Play::fresh(3, 0).then("0.1 0.3 0.7 1.1 1.3 1.7 0.5 0.7");
    twice.then("2.0").rounds().then("2.0").rounds().then("2.0").rounds()
}
