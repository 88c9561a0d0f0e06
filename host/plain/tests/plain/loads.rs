//! Loads against document 02: what is drawn, the refusals and their order, and when loads die.

use crate::support::*;
use guide::deaths::{compared_row, end, row, End, COMPARED, COMPARED_HEAD, HEAD, SIZES};

/// The greatest seed, and the most events of a load.
const MOST_SEED: u64 = 2_147_483_646;
const MOST_EVENTS: u64 = 4_128_768;

/// A load with an output of so many bytes: its answer and the output.
fn load<const FAULT: u8>(n: u64, seed: u64, count: u64, room: usize) -> (Answer, Vec<u8>) {
    let mut output = vec![0xA5; room];
    let answer = answer(|result| plain::ring_load::<FAULT>(n, seed, count, &mut output, result));
    (answer, output)
}

/// The events of a load, by document 02's own words.
fn drawn(n: u64, seed: u64, count: usize) -> Vec<[u8; 8]> {
    let mut last = seed;
    let mut draw = || {
        last = 16_807 * last % 2_147_483_647;
        last
    };
    let mut event = || {
        let [first, second, third] = [draw(), draw(), draw()];
        let code = second % 8;
        guide::event(first % n, code, if code == 0 { third as u32 } else { 0 })
    };
    (0..count).map(|_| event()).collect()
}

/// The 10,000th number drawn from 1 is the first of event 3,333's three. Its rests by 2 to 64 leave no other number.
#[test]
fn the_10_000th_number_is_the_published_one() {
    for n in 2..=64 {
        let tape = guide::load(n, 1, 3_334);
        let last = 512 * (3_333 / 63) + 8 + 8 * (3_333 % 63);
        assert_eq!(u64::from(tape[last]), 1_043_618_065 % n, "N {n}");
    }
}

#[test]
fn the_first_event_of_seed_1_for_4_is_a_get_of_process_3() {
    let (answer, output) = load::<0>(4, 1, 1, 512);
    assert_eq!(answer, done(&[512]));
    assert_eq!(output, tape(4, &events("3.1")));
}

#[test]
fn a_load_is_the_tape_of_the_events_drawn() {
    for n in 2..=64 {
        for seed in [1, 2, 16_807, 2_147_483_645, MOST_SEED, 1_000_003 * n] {
            for count in [0, 1, 2, 62, 63, 64, 125, 126, 127, 1_000] {
                let expected = tape(n, &drawn(n, seed, count));
                let (answer, output) = load::<0>(n, seed, count as u64, expected.len());
                assert_eq!(answer, done(&[expected.len() as u64]));
                assert!(output == expected, "N {n}, seed {seed}, {count} events");
            }
        }
    }
}

#[test]
fn the_longest_load_is_the_tape_of_the_events_drawn() {
    let (answer, output) = load::<0>(64, MOST_SEED, MOST_EVENTS, 512 * 65_536);
    assert_eq!(answer, done(&[512 * 65_536]));
    assert!(output == tape(64, &drawn(64, MOST_SEED, MOST_EVENTS as usize)));
}

/// The last number of a load's draws is the seed of what comes after it.
#[test]
fn a_load_goes_on_from_its_last_number() {
    let events = drawn(7, 5, 300);
    let last = (0..3 * 100).fold(5, |last, _| 16_807 * last % 2_147_483_647);
    assert_eq!(drawn(7, last, 200), events[100..]);
    assert_eq!(guide::load(7, 5, 126)[..], guide::load(7, 5, 300)[..1024]);
}

/// Every refusal with all that come after it; none changes the output.
#[test]
fn a_load_is_refused_by_1_then_11_then_6_then_10() {
    let refusal = |n, seed, count, room: usize| {
        let (answer, output) = load::<0>(n, seed, count, room);
        assert!(answer.number != 0 && output == vec![0xA5; room]);
        answer
    };
    for n in [0, 1, 65, 256 + 4, (1 << 32) + 4, u64::MAX] {
        assert_eq!(refusal(n, 0, u64::MAX, 0), refused(1, 0));
        assert_eq!(refusal(n, 1, 63, 512), refused(1, 0));
    }
    for seed in [0, MOST_SEED + 1, 1 << 31, 1 << 32, (1 << 32) + 1, 1 << 63, u64::MAX] {
        assert_eq!(refusal(4, seed, u64::MAX, 0), refused(11, 0));
        assert_eq!(refusal(4, seed, 0, 0), refused(11, 0));
        assert_eq!(refusal(4, seed, 63, 512), refused(11, 0));
    }
    for count in [MOST_EVENTS + 1, 1 << 32, (1 << 32) + 1, 1 << 63, u64::MAX] {
        assert_eq!(refusal(4, 1, count, 0), refused(6, 0));
        assert_eq!(refusal(4, MOST_SEED, count, 1_024), refused(6, 0));
    }
    for (count, bytes) in [(1, 512), (63, 512), (64, 1_024), (126, 1_024), (127, 1_536)] {
        for room in [0, 1, bytes - 512, bytes - 1] {
            assert_eq!(refusal(4, 1, count, room), refused(10, 0), "{count} events, {room} bytes");
        }
        assert_eq!(load::<0>(4, 1, count, bytes).0, done(&[bytes as u64]));
    }
    assert_eq!(refusal(4, 1, MOST_EVENTS, 512 * 65_536 - 1), refused(10, 0));
}

#[test]
fn a_short_result_stays_and_is_10_last() {
    for length in 0..80 {
        let mut result = vec![0xA5; length];
        let mut output = [0xA5; 512];
        let mut number = |n, seed, count| plain::ring_load::<0>(n, seed, count, &mut output, &mut result);
        let many = u64::MAX;
        assert_eq!([number(1, 0, many), number(4, 0, many), number(4, 1, many), number(4, 1, 64)], [1, 11, 6, 10]);
        assert_eq!([number(4, 1, 63), number(4, 1, 0)], [10, 10]);
        assert_eq!((result, output), (vec![0xA5; length], [0xA5; 512]));
    }
}

#[test]
fn a_load_of_no_events_leaves_its_output() {
    for room in [0, 1, 511, 512, 513] {
        assert_eq!(load::<0>(4, 1, 0, room), (done(&[0]), vec![0xA5; room]));
    }
}

#[test]
fn further_bytes_are_kept() {
    for count in [1, 63] {
        let (answer, output) = load::<0>(4, 1, count, 1_100);
        assert_eq!(answer, done(&[512]));
        assert_eq!(output[512..], [0xA5; 588]);
        assert!(output[8 + 8 * count as usize..512].iter().all(|byte| *byte == 0));
    }
}

#[test]
fn faults_of_loads_are_seen() {
    assert_eq!(load::<15>(4, 1, 1, 512), load::<0>(4, 1, 1, 512));
    assert_ne!(load::<15>(4, 1, 2, 512), load::<0>(4, 1, 2, 512));
    assert_eq!(load::<16>(4, MOST_SEED, 1, 512).0, refused(11, 0));
    assert_eq!(load::<16>(4, MOST_SEED - 1, 1, 512), load::<0>(4, MOST_SEED - 1, 1, 512));
    assert_eq!(load::<17>(4, 0, MOST_EVENTS + 1, 512).0, refused(6, 0));
}

#[test]
fn a_known_load_dies_with_event_1438() {
    assert_eq!(end(4, 1), End::Dies(1_438));
    let (before, idle) = after(4, 0, &drawn(4, 1, 1_438));
    let (dead, more_idle) = after(4, 0, &drawn(4, 1, 1_439));
    assert!(before != dead && idle == more_idle && stopped(&dead));
    let (same, _) = after(4, 0, &drawn(4, 1, 50_000));
    assert_eq!(same, dead);
}

/// A load that goes round: events still move at its end, and nothing has been filled, taken or ended for long.
#[test]
fn a_known_load_goes_round() {
    assert_eq!(end(2, 13), End::GoesRound);
    let mut image = guide::fresh(2, 0);
    let (answer, ledger) = run(&mut image, &guide::load(2, 13, 1_000_000), 12 * 8);
    assert_eq!(answer.words[7], 8);
    assert_eq!(ledger[12 * 7..][..4], 585u32.to_le_bytes());
    assert!(!stopped(&image) && answer.words[6] < 990_000);
}

/// The tables of the README are what is measured, and so is the load that it names.
#[test]
fn the_readme_has_when_loads_die() {
    let readme = include_str!("../../../../README.md");
    let tables: [String; 2] = [
        [HEAD.to_string()].into_iter().chain(SIZES.map(row)).collect(),
        [COMPARED_HEAD.to_string()].into_iter().chain(COMPARED.map(compared_row)).collect(),
    ];
    for table in tables {
        assert!(readme.contains(&format!("\n\n{table}\n")), "the table must be:\n{table}");
    }
    assert!(readme.contains("N = 8 and seed 20,261,117 with event 4,570"));
    assert_eq!(end(8, 20_261_117), End::Dies(4_570));
}
