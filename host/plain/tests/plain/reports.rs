//! Ringrun's text: what it has for the ring's end, for numbers of every length, and for each refusal
//! in its turn.

use crate::support::*;

/// An input of some blocks, the last with one event, for N and home.
fn blocks(n: u8, home: u8, blocks: usize) -> Vec<u8> {
    let mut input = input(2, 0, &vec![guide::event(1, 7, 0); 63 * (blocks - 1) + 1]);
    input[..2].copy_from_slice(&[n, home]);
    input
}

#[test]
fn entry_3_has_no_record_but_the_fill() {
    let list = events("1.0, 1.3, 1.7, 0.6, 0.7, 1.4, 1.7, 1.2, 1.3, 1.7");
    let lines = "7 1 fill 7\nputs 1 gets 0 fills 1 takes 0 sent 0 got 0 idle 0\nstopped\n";
    assert_eq!(printed(2, 0, &list), lines);
}

#[test]
fn a_ring_that_can_move_is_moving() {
    let lines = |puts, idle, end| format!("puts {puts} gets 0 fills 0 takes 0 sent 0 got 0 idle {idle}\n{end}\n");
    assert_eq!(printed(2, 0, &events("1.7")), lines(0, 1, "stopped"));
    assert_eq!(printed(2, 0, &events("1.0")), lines(1, 0, "moving"));
    assert_eq!(printed(64, 63, &events("63.0, 63.0, 63.0")), lines(1, 2, "moving"));
}

#[test]
fn messages_are_decimal() {
    for message in [0, 9, 10, 99, 100, 65_535, 65_536, 999_999_999, 1_000_000_000, u32::MAX] {
        let mut list = events("1.0, 1.3, 1.7, 0.6, 0.7, 1.4, 1.7, 1.2");
        list[0] = guide::event(1, 0, message);
        let first = format!("7 1 fill {message}\nputs 1 ");
        assert!(printed(2, 0, &list).starts_with(&first), "{message}");
    }
}

#[test]
fn the_event_number_counts_over_blocks() {
    let idle = vec![guide::event(1, 7, 0); 64 * 63 - 4];
    let put = events("0.0, 0.3, 0.7, 0.2");
    let lines = "4031 0 fill 7\nputs 1 gets 0 fills 1 takes 0 sent 0 got 0 idle 4028\nmoving\n";
    assert_eq!(printed(2, 0, &[idle, put].concat()), lines);
}

#[test]
fn a_missing_byte_reads_as_0() {
    assert_eq!(report(&[]), "refused 1 at 0\n");
    assert_eq!(report(&[1]), "refused 1 at 0\n");
    assert_eq!(report(&[2]), NOTHING);
    assert_eq!(report(&[2, 2]), "refused 2 at 0\n");
}

/// What is printed of a run of no events.
const NOTHING: &str = "puts 0 gets 0 fills 0 takes 0 sent 0 got 0 idle 0\nstopped\n";

#[test]
fn no_blocks_are_no_events() {
    for (n, home) in [(2, 0), (2, 1), (37, 36), (64, 0), (64, 63)] {
        assert_eq!(report(&[n, home]), NOTHING);
        assert_eq!(report(&[n, home, 0]), "refused 6 at 0\n");
    }
}

#[test]
fn more_than_64_blocks_come_after_1_and_2_and_before_the_tape() {
    assert!(report(&blocks(2, 0, 64)).ends_with("idle 3970\nstopped\n"));
    for wrong in [0, 1, 65, 255] {
        assert_eq!(report(&blocks(wrong, 255, 65)), "refused 1 at 0\n");
    }
    assert_eq!(report(&blocks(2, 2, 65)), "refused 2 at 0\n");
    assert_eq!(report(&blocks(2, 0, 65)), "refused 6 at 0\n");
    let mut damaged = blocks(2, 0, 65);
    damaged[2 + 20] ^= 1;
    assert_eq!(report(&damaged), "refused 6 at 0\n");
    damaged.truncate(2 + 64 * 512 + 1);
    assert_eq!(report(&damaged), "refused 6 at 0\n");
    damaged.truncate(2 + 64 * 512);
    assert_eq!(report(&damaged), "refused 7 at 0\n");
}

/// Each refusal of the tape with all that come after it.
#[test]
fn the_tape_is_refused_as_by_a_run() {
    let right = blocks(2, 0, 2);
    let block = 2 + 512;
    let altered = |bytes: &[(usize, u8)], check: bool| {
        let mut input = right.clone();
        bytes.iter().for_each(|(at, byte)| input[block + at] = *byte);
        if check {
            give_check(&mut input[block..]);
        }
        input
    };
    let (number, event, unused) = ((0, 2), (9, 8), (16, 1));
    let mut ragged = altered(&[number, event, unused], false);
    ragged.pop();
    assert_eq!(report(&ragged), "refused 6 at 0\n");
    assert_eq!(report(&altered(&[number, event, unused], false)), "refused 7 at 1\n");
    assert_eq!(report(&altered(&[number, event, unused], true)), "refused 8 at 1\n");
    assert_eq!(report(&altered(&[event, unused], true)), "refused 5 at 63\n");
    assert_eq!(report(&altered(&[unused], true)), "refused 9 at 1\n");
}
