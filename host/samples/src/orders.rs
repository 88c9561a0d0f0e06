//! Two faults at once: the one that document 01 has first is named.

use crate::damage::{one_event, three_blocks, Damage};
use crate::sizes::blocks;
use crate::Sample;

/// The refusals of ringrun, in their order.
const ORDER: [u8; 7] = [1, 2, 6, 7, 8, 5, 9];

pub fn samples() -> Vec<Sample> {
    let mut all = Vec::new();
    for (at, first) in ORDER.into_iter().enumerate() {
        for second in ORDER.into_iter().skip(at + 1) {
            all.push((format!("{first}-before-{second}"), faulty(&[first, second])));
        }
    }
    all.push(("all-seven".into(), faulty(&ORDER)));
    all.extend(by_block());
    all.extend(with_65_blocks());
    all.into_iter().map(|(name, Damage(input))| Sample::new(format!("order-{name}"), input)).collect()
}

/// One block of one event with all the faults given. Checks are right but for fault 7.
fn faulty(faults: &[u8]) -> Damage {
    let mut damage = one_event();
    for fault in ORDER.iter().rev().filter(|fault| faults.contains(fault)) {
        damage = match fault {
            1 => damage.n(1),
            2 => damage.home(2),
            6 => damage.length(513),
            7 => damage.torn(0, 4, 255),
            8 => damage.sealed(0, 0, 1),
            5 => damage.sealed(0, 9, 8),
            _ => damage.sealed(0, 20, 1),
        };
    }
    damage
}

/// A block is tested to its end before the next one, and so is a list of events.
fn by_block() -> Vec<(String, Damage)> {
    let wrong = [1, 8, 0, 0, 0, 0, 0, 0];
    vec![
        ("5-in-block-0-before-7-in-block-1".into(), three_blocks().event(60, wrong).torn(1, 5, 255)),
        ("5-in-block-0-before-8-in-block-1".into(), three_blocks().event(60, wrong).sealed(1, 0, 7)),
        ("5-in-block-1-before-9-in-block-2".into(), three_blocks().event(100, wrong).sealed(2, 511, 1)),
        ("8-in-block-0-before-7-in-block-1".into(), three_blocks().sealed(0, 2, 62).torn(1, 5, 255)),
        ("7-in-block-1-before-7-in-block-2".into(), three_blocks().torn(1, 5, 255).torn(2, 5, 255)),
        ("5-at-20-before-5-at-21".into(), three_blocks().event(20, wrong).event(21, wrong)),
        ("5-at-62-before-5-at-63".into(), three_blocks().event(62, wrong).event(63, wrong)),
    ]
}

/// More than 64 blocks: after N and home, before all that is on them.
fn with_65_blocks() -> Vec<(String, Damage)> {
    vec![
        ("1-before-6-of-65-blocks".into(), blocks(65).n(1)),
        ("2-before-6-of-65-blocks".into(), blocks(65).home(64)),
        ("6-of-65-blocks-before-7".into(), blocks(65).torn(0, 4, 255).torn(0, 5, 255)),
    ]
}
