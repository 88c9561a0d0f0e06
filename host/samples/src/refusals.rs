//! Each refusal that ringrun can give, by each of its causes, at the start of a tape and further on.
//! Overlong inputs, which are refused too, are among the sizes, and so is no input at all.

use crate::damage::{greatest_ring, one_event, three_blocks, Damage};
use crate::Sample;

pub fn samples() -> Vec<Sample> {
    let groups = [arguments(), lengths(), checks(), half_checks(), headers(), events(), unused_slots()];
    let all = groups.into_iter().flatten();
    all.map(|(name, Damage(input))| Sample::new(format!("refused-{name}"), input)).collect()
}

/// 1 and 2: N outside 2 to 64, home not below N.
fn arguments() -> Vec<(String, Damage)> {
    let sizes = [0, 1, 65, 255].map(|n| (format!("1-n-{n}"), one_event().n(n)));
    let homes = [(2, 2), (3, 255), (4, 4), (64, 64)];
    let homes = homes.map(|(n, home)| (format!("2-n-{n}-home-{home}"), one_event().n(n).home(home)));
    sizes.into_iter().chain(homes).collect()
}

/// 6: the tape is ragged.
fn lengths() -> Vec<(String, Damage)> {
    let lengths = [("1-byte", 1), ("511-bytes", 511), ("513-bytes", 513), ("1023-bytes", 1023)];
    lengths.map(|(what, bytes)| (format!("6-{what}"), three_blocks().length(bytes))).into()
}

/// 7: one byte altered, anywhere in a block; two events exchanged.
fn checks() -> Vec<(String, Damage)> {
    let places = [("number", 0), ("count", 2), ("check-a", 4), ("check-b", 7), ("event", 17)];
    let mut all = Vec::new();
    for block in [0, 1, 2] {
        for (what, at) in places {
            let mut damage = three_blocks();
            damage.block(block)[at] ^= 1;
            all.push((format!("7-{what}-block-{block}"), damage));
        }
    }
    all.push(("7-unused-slot-block-0".into(), one_event().torn(0, 16, 1)));
    all.push(("7-unused-slot-block-2".into(), three_blocks().torn(2, 511, 128)));
    all.push(("7-exchanged-block-1".into(), three_blocks().exchanged(1, 7, 8)));
    all
}

/// 7: a half of the check is 65,535 where 0 is right. The message makes it 0.
fn half_checks() -> Vec<(String, Damage)> {
    let put = |message: u32| guide::event(0, 0, message);
    let first = |message| one_event().event(0, put(message));
    let last = |message| three_blocks().event(126, put(message));
    vec![
        ("7-check-a-65535-block-0".into(), filled(first(65_534), 0, 4)),
        ("7-check-a-65535-block-2".into(), filled(last(65_532), 2, 4)),
        ("7-check-b-65535-block-0".into(), filled(first(209_711), 0, 6)),
        ("7-check-b-65535-block-2".into(), filled(last(74_969), 2, 6)),
    ]
}

/// A half of a check set from 0 to 65,535.
fn filled(mut damage: Damage, block: usize, at: usize) -> Damage {
    let half = &mut damage.block(block)[at..at + 2];
    assert_eq!(half, [0, 0]);
    half.fill(255);
    damage
}

/// 8: another number, another count.
fn headers() -> Vec<(String, Damage)> {
    let numbers = [(0, 0, 1), (0, 1, 1), (1, 0, 0), (1, 1, 1), (2, 0, 3)];
    let numbers = numbers.map(|(block, at, byte)| {
        let number = if at == 0 { usize::from(byte) } else { block + 256 };
        (format!("8-number-{number}-block-{block}"), three_blocks().sealed(block, at, byte))
    });
    let counts = [(0, 0), (0, 62), (0, 64), (1, 0), (1, 62), (1, 64), (2, 0), (2, 64)];
    let counts =
        counts.map(|(block, count)| (format!("8-count-{count}-block-{block}"), three_blocks().sealed(block, 2, count)));
    let alone = [0, 64].map(|count| (format!("8-count-{count}-alone"), one_event().sealed(0, 2, count)));
    let upper = ("8-count-257-block-2".into(), three_blocks().sealed(2, 3, 1));
    let zeros = ("8-count-0-of-zeros".into(), one_event().length(0).length(512));
    numbers.into_iter().chain(counts).chain(alone).chain([upper, zeros]).collect()
}

/// 5: each wrong event in block 0 and in block 1, one in the greatest ring, and one at the ends of the
/// blocks.
fn events() -> Vec<(String, Damage)> {
    let wrong = [
        ("process-n", [3, 7, 0, 0, 0, 0, 0, 0]),
        ("process-255", [255, 0, 0, 0, 0, 0, 0, 0]),
        ("code-8", [1, 8, 0, 0, 0, 0, 0, 0]),
        ("code-255", [1, 255, 0, 0, 0, 0, 0, 0]),
        ("byte-2", [1, 3, 1, 0, 0, 0, 0, 0]),
        ("byte-3", [1, 0, 0, 128, 9, 0, 0, 0]),
        ("message-with-code-1", [1, 1, 0, 0, 1, 0, 0, 0]),
        ("message-with-code-7", [1, 7, 0, 0, 0, 0, 0, 128]),
    ];
    let mut all = Vec::new();
    for (what, event) in wrong {
        for number in [5, 64] {
            all.push((format!("5-{what}-at-{number}"), three_blocks().event(number, event)));
        }
    }
    all.push(("5-process-64-of-64-at-9".into(), greatest_ring().event(9, [64, 7, 0, 0, 0, 0, 0, 0])));
    for number in [0, 62, 63, 125, 126] {
        all.push((format!("5-code-8-at-{number}"), three_blocks().event(number, [1, 8, 0, 0, 0, 0, 0, 0])));
    }
    all
}

/// 9: the first and the last byte of the unused slots.
fn unused_slots() -> Vec<(String, Damage)> {
    vec![
        ("9-slot-1-block-0".into(), one_event().sealed(0, 16, 1)),
        ("9-slot-62-block-0".into(), one_event().sealed(0, 511, 128)),
        ("9-slot-1-block-2".into(), three_blocks().sealed(2, 16, 1)),
        ("9-slot-62-block-2".into(), three_blocks().sealed(2, 511, 128)),
    ]
}
