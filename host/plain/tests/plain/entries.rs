//! The ten entries of document 01.

use crate::support::*;
use samples::crossing_lists::ENTRY_10;

const FIRST: &str = "1.0, 1.3, 1.7, 0.6, 0.7, 1.4, 1.7, 1.2, 1.3, 1.7, \
                     0.1, 0.3, 0.7, 1.5, 1.7, 0.4, 0.7, 0.2, 0.3, 0.7";

#[test]
fn entry_1_prints_its_lines() {
    assert_eq!(printed(2, 0, &events(FIRST)), include_str!("../../../../samples/entry-01.out"));
}

#[test]
fn entry_2_has_its_last_image() {
    let (image, idle) = after(2, 0, &events(FIRST));
    let mut last = [0; 32];
    last[0] = 2;
    last[17] = 1;
    last[18] = 4;
    assert_eq!(image, last);
    assert_eq!(idle, 0);
}

#[test]
fn entry_3_stops_with_nothing_sent() {
    let lines = printed(2, 0, &events(FIRST)[..10]);
    assert!(lines.contains(" sent 0 got 0 ") && lines.ends_with("stopped\n"), "{lines}");
}

#[test]
fn entry_4_is_idle_on_a_fresh_ring() {
    let mut image = guide::fresh(2, 0);
    assert_eq!(step(&mut image, &events("1.7")[0]), done(&[0, 0]));
    assert_eq!(image, guide::fresh(2, 0));
}

#[test]
fn entry_5_keeps_the_first_note() {
    let mut image = guide::fresh(2, 0);
    assert_eq!(step(&mut image, &guide::event(1, 0, 7)), done(&[1, 0]));
    let first = image.clone();
    assert_eq!(step(&mut image, &guide::event(1, 0, 8)), done(&[0, 0]));
    assert_eq!(image, first);
    assert_eq!(image[28..], [7, 0, 0, 0]);
}

#[test]
fn entry_6_has_its_check() {
    let tape = tape(2, &events("1.0"));
    assert_eq!(tape[4..8], (9u32 + 65_536 * 2_255).to_le_bytes());
}

#[test]
fn entry_7_takes_64_and_not_65() {
    let mut buffer = vec![0; 1024];
    let mut fresh = |n| answer(|result| plain::ring_fresh::<0>(n, 0, &mut buffer, result));
    assert_eq!(fresh(64), done(&[]));
    assert_eq!(fresh(65), refused(1, 0));
}

#[test]
fn entry_8_makes_one_block_or_two() {
    let mut output = vec![0; 2048];
    for (count, bytes) in [(63, 512), (64, 1024)] {
        let list = guide::uniform(2, count, &mut guide::Random::new(8));
        let written = answer(|result| plain::ring_write::<0>(2, &list, &mut output, result));
        assert_eq!(written, done(&[bytes]));
        let mut back = vec![0; 8 * count];
        let tape = &output[..bytes as usize];
        let read = answer(|result| plain::ring_read::<0>(2, tape, &mut back, result));
        assert_eq!(read, done(&[8 * count as u64]));
        assert_eq!(back, list);
    }
}

#[test]
fn entry_9_needs_12_bytes_for_one_record() {
    let tape = tape(2, &events(FIRST)[..8]);
    let mut image = guide::fresh(2, 0);
    let (answer, ledger) = run(&mut image, &tape, 11);
    assert_eq!(answer, refused(10, 0));
    assert_eq!((image.clone(), ledger), (guide::fresh(2, 0), vec![0xA5; 11]));
    let (answer, ledger) = run(&mut image, &tape, 12);
    assert_eq!(answer, done(&[1, 0, 1, 0, 0, 0, 0, 1, 1, 1]));
    assert_eq!(ledger, [7, 0, 0, 0, 1, 2, 0, 0, 7, 0, 0, 0]);
}

#[test]
fn entry_10_ends_a_put_alone() {
    let list = events(ENTRY_10[0].list);
    let (marked, _) = after(2, 0, &list[..21]);
    assert_eq!((marked[2], stopped(&marked)), (1, true));
    assert!(marked.chunks_exact(8).skip(2).all(|record| record[0] < 6), "no receiver");
    let lines = printed(2, 0, &list);
    assert!(lines.ends_with("puts 2 gets 1 fills 2 takes 1 sent 2 got 1 idle 0\nmoving\n"));
    full_until_a_get_has_taken(&after(2, 0, &list).0);
}

/// Rounds of events 2 to 7 do not stop the ring; a get then does.
fn full_until_a_get_has_taken(image: &[u8]) {
    let mut image = image.to_vec();
    let rounds = |image: &mut Vec<u8>| {
        for turn in 0..400 {
            step(image, &guide::event(turn / 6 % 2, 2 + turn % 6, 0));
        }
    };
    rounds(&mut image);
    assert!(!stopped(&image) && image[1] == 1);
    assert_eq!(step(&mut image, &guide::event(0, 1, 0)), done(&[1, 0]));
    rounds(&mut image);
    assert!(stopped(&image) && image[1] == 0);
}
