//! Each refusal, and that it comes in its turn: the inputs below are wrong in all that comes later
//! too.

use crate::support::*;

/// A tape with the bytes given at some places, and right checks.
fn altered(tape: &[u8], bytes: &[(usize, u8)]) -> Vec<u8> {
    let mut tape = tape.to_vec();
    for (at, byte) in bytes {
        tape[*at] = *byte;
    }
    tape.chunks_exact_mut(512).for_each(give_check);
    tape
}

/// A tape of 3 blocks, the last with 1 event, for 2 processes.
fn three_blocks() -> Vec<u8> {
    guide::tape(2, &guide::uniform(2, 127, &mut guide::Random::new(3)))
}

/// A run from a fresh ring with no ledger at all: its answer. A refusal must leave the image.
fn run_from_fresh(tape: &[u8]) -> Answer {
    let mut image = guide::fresh(2, 0);
    let (answer, _) = run(&mut image, tape, 0);
    assert!(answer.number == 0 || image == guide::fresh(2, 0));
    answer
}

#[test]
fn arguments_come_first() {
    let fresh = |n, home, length: usize| {
        let mut image = vec![0xA5; length];
        let answer = answer(|result| plain::ring_fresh::<0>(n, home, &mut image, result));
        assert!(answer.number == 0 || image == vec![0xA5; length]);
        answer
    };
    for n in [0, 1, 65, 256 + 2, u64::MAX] {
        assert_eq!(fresh(n, u64::MAX, 0), refused(1, 0));
        let write = answer(|result| plain::ring_write::<0>(n, &[0], &mut [], result));
        assert_eq!(write, refused(1, 0));
        let read = answer(|result| plain::ring_read::<0>(n, &[0], &mut [], result));
        assert_eq!(read, refused(1, 0));
    }
    for home in [4, 5, 1 << 32, u64::MAX] {
        assert_eq!(fresh(4, home, 0), refused(2, 0));
    }
    assert_eq!(fresh(4, 3, 47), refused(3, 0));
    assert_eq!(fresh(4, 3, 48), done(&[]));
}

#[test]
fn an_image_is_refused_by_length_size_length_and_rest() {
    for length in 0..16 {
        assert_eq!(step(&mut vec![0; length], &[]), refused(3, 0));
    }
    for size in [0, 1, 65, 255] {
        let mut image = vec![0; 16];
        image[0] = size;
        assert_eq!(step(&mut image, &[]), refused(4, 0));
    }
    for size in [2, 37, 64] {
        for length in 16..16 + 8 * usize::from(size) {
            let mut image = vec![0xFF; length];
            image[0] = size;
            assert_eq!(step(&mut image, &[]), refused(3, 0));
            assert_eq!(run(&mut image, &[0], 0).0, refused(3, 0));
        }
        let mut image = vec![0; 16 + 8 * usize::from(size)];
        image[0] = size;
        assert_eq!(step(&mut image, &[]), refused(4, 0), "no envelope");
        assert_eq!(run(&mut image, &[0], 0).0, refused(4, 0), "no envelope");
    }
}

/// Whether an image is sound, word for word as document 01 says it.
pub fn sound(image: &[u8]) -> bool {
    let n = usize::from(image[0]);
    let records: Vec<&[u8]> = image[16..16 + 8 * n].chunks_exact(8).collect();
    let full = image[1] == 1;
    let count = |byte: usize, bit: u8| records.iter().filter(|r| r[byte] >> bit & 1 == 1).count();
    let header = image[1] <= 1
        && image[2] <= 3
        && image[5..8] == [0; 3]
        && (full || image[8..12] == [0; 4])
        && image[12..16] == [0; 4];
    let each = |r: &&[u8]| {
        r[0] <= 10
            && r[1] <= 7
            && r[3] == 0
            && ((1..=3).contains(&r[0]) || r[4..] == [0; 4])
            && (![3, 9, 10].contains(&r[0]) || r[1] & 1 == 1 && !full)
            && (![4, 5, 8].contains(&r[0]) || r[1] & 1 == 1 && full)
            && (r[2] >> 4 & 1 == 0 || (7..=10).contains(&r[0]))
            && (r[2] >> 5 & 1 == 0 || (2..=5).contains(&r[0]))
    };
    header
        && records.iter().all(each)
        && count(1, 0) + count(1, 1) == 1
        && usize::from(image[3]) == count(2, 4)
        && usize::from(image[4]) == count(2, 5)
}

#[test]
fn soundness_is_that_of_document_01() {
    let mut random = guide::Random::new(4);
    for n in [2, 3, 9, 64] {
        let list = guide::guided(&guide::fresh(n, 1), 300, &mut random);
        let mut image = guide::fresh(n, 1);
        for event in list.chunks_exact(8) {
            step(&mut image, event);
            assert!(sound(&image) && step(&mut image.clone(), event).number == 0);
            for _ in 0..300 {
                let altered = altered_image(&image, &mut random);
                let number = if sound(&altered) { 0 } else { 4 };
                let answer = answer(|result| plain::ring_stopped::<0>(&altered, result));
                assert_eq!(answer.number, number, "{altered:?}");
            }
        }
    }
}

/// An image with one or two of its bytes after N altered.
pub fn altered_image(image: &[u8], random: &mut guide::Random) -> Vec<u8> {
    let mut image = image.to_vec();
    for _ in 0..1 + random.below(2) {
        let at = 1 + random.below(image.len() as u64 - 1) as usize;
        image[at] = match random.below(3) {
            0 => random.draw() as u8,
            1 => random.below(12) as u8,
            _ => image[at] ^ 1 << random.below(8),
        };
    }
    image
}

#[test]
fn a_single_event_is_refused_at_0() {
    let mut wrong: Vec<Vec<u8>> = (0..20).filter(|l| *l != 8).map(|l| vec![0; l]).collect();
    wrong.push(vec![2, 0, 0, 0, 0, 0, 0, 0]);
    wrong.push(vec![255, 0, 0, 0, 0, 0, 0, 0]);
    wrong.push(vec![1, 8, 0, 0, 0, 0, 0, 0]);
    wrong.push(vec![1, 255, 0, 0, 0, 0, 0, 0]);
    wrong.push(vec![1, 0, 1, 0, 0, 0, 0, 0]);
    wrong.push(vec![1, 0, 0, 128, 0, 0, 0, 0]);
    for code in 1..8 {
        wrong.push(vec![1, code, 0, 0, 1, 0, 0, 0]);
        wrong.push(vec![1, code, 0, 0, 0, 0, 0, 128]);
    }
    for event in wrong {
        let mut image = guide::fresh(2, 0);
        assert_eq!(step(&mut image, &event), refused(5, 0), "{event:?}");
        let number = plain::ring_step::<0>(&mut image, &event, &mut []);
        assert_eq!((number, image), (5, guide::fresh(2, 0)));
    }
}

#[test]
fn a_list_is_refused_by_length_then_by_event() {
    let write = |list: &[u8]| answer(|result| plain::ring_write::<0>(2, list, &mut [], result));
    for length in (0..64).filter(|length| length % 8 != 0) {
        assert_eq!(write(&vec![255; length]), refused(6, 0));
    }
    let mut list = vec![0; 8 * 4_128_769];
    assert_eq!(write(&list), refused(6, 0));
    list.truncate(8 * 4_128_768);
    assert_eq!(write(&list), refused(10, 0));
    list[8 * 4_000_000 + 1] = 8;
    assert_eq!(write(&list), refused(5, 4_000_000));
}

#[test]
fn a_tape_is_refused_by_length() {
    for length in [1, 511, 513, 1023, 512 * 65_537] {
        assert_eq!(run_from_fresh(&vec![255; length]), refused(6, 0));
        let tape = vec![255; length];
        let read = answer(|result| plain::ring_read::<0>(2, &tape, &mut [], result));
        assert_eq!(read, refused(6, 0));
    }
}

#[test]
fn a_block_is_refused_by_7_then_8_then_5_then_9() {
    let tape = three_blocks();
    let mut all_wrong = altered(&tape, &[(512, 9), (514, 62), (521, 8), (1024 + 16, 1)]);
    assert_eq!(run_from_fresh(&all_wrong), refused(8, 1));
    all_wrong[516] ^= 1;
    assert_eq!(run_from_fresh(&all_wrong), refused(7, 1));
    let wrong_event = altered(&tape, &[(512 + 17, 8), (1024 + 16, 1)]);
    assert_eq!(run_from_fresh(&wrong_event), refused(5, 63 + 1));
    let last = altered(&tape, &[(1024 + 9, 8), (1024 + 16, 1)]);
    assert_eq!(run_from_fresh(&last), refused(5, 126));
    let unused = altered(&tape, &[(1024 + 511, 1)]);
    assert_eq!(run_from_fresh(&unused), refused(9, 2));
}

/// Such a block is no tape of no events, whatever stands in its slots: alone, or behind a full one.
#[test]
fn a_block_of_no_events_is_refused_by_8() {
    let nothing = altered(&[0; 512], &[]);
    assert_eq!(nothing, [0; 512], "its check is 0");
    assert_eq!(run_from_fresh(&nothing), refused(8, 0));
    let full = &three_blocks()[..512];
    assert_eq!(run_from_fresh(&altered(&[full, &nothing].concat(), &[(512, 1)])), refused(8, 1));
    assert_eq!(run_from_fresh(&altered(&tape(2, &events("1.0")), &[(2, 0)])), refused(8, 0));
}

#[test]
fn every_altered_bit_of_a_tape_is_refused() {
    let tape = three_blocks();
    for at in 0..tape.len() {
        let mut altered = tape.clone();
        altered[at] ^= 1 << (at % 8);
        assert_eq!(run_from_fresh(&altered), refused(7, at as u64 / 512));
    }
}

#[test]
fn numbers_and_counts_are_those_of_the_place() {
    let tape = three_blocks();
    for (at, byte, block) in [(0, 1, 0), (512, 0, 1), (513, 1, 1), (1024, 3, 2)] {
        assert_eq!(run_from_fresh(&altered(&tape, &[(at, byte)])), refused(8, block));
    }
    for (at, byte, block) in [(2, 62, 0), (514, 64, 1), (1026, 0, 2), (1026, 64, 2), (1027, 1, 2)] {
        assert_eq!(run_from_fresh(&altered(&tape, &[(at, byte)])), refused(8, block));
    }
}

#[test]
fn a_half_of_65_535_is_never_right() {
    let mut tape = tape(2, &events("0.7"));
    let slots: Vec<(usize, u8)> = vec![(8, 0), (9, 0), (12, 254), (13, 255)];
    tape = altered(&tape, &slots);
    assert_eq!(tape[4..6], [0, 0], "the lower half is 0");
    tape[4..6].fill(255);
    assert_eq!(run_from_fresh(&tape), refused(7, 0));
}

#[test]
fn the_check_is_that_of_document_01() {
    let mut random = guide::Random::new(6);
    for _ in 0..2_000 {
        let mut tape = vec![0; 512];
        let dense = random.chance(50);
        for byte in &mut tape {
            *byte = if dense || random.chance(3) { random.draw() as u8 } else { 255 };
        }
        tape[..4].copy_from_slice(&[0, 0, 1, 0]);
        give_check(&mut tape);
        assert_ne!(run_from_fresh(&tape).number, 7);
    }
    assert_ne!(run_from_fresh(&altered(&[255; 512], &[])).number, 7);
}

#[test]
fn a_short_result_stays_and_is_10_last() {
    let tape = tape(2, &events("1.0, 1.3"));
    for length in 0..80 {
        let mut result = vec![0xA5; length];
        let mut image = guide::fresh(2, 0);
        let event = guide::event(1, 0, 7);
        assert_eq!(plain::ring_step::<0>(&mut image, &event, &mut result), 10);
        assert_eq!(plain::ring_run::<0>(&mut image, &tape, &mut [0; 24], &mut result), 10);
        assert_eq!(plain::ring_stopped::<0>(&image, &mut result), 10);
        assert_eq!(plain::ring_run::<0>(&mut image, &tape[1..], &mut [], &mut result), 6);
        assert_eq!(plain::ring_step::<0>(&mut image[..31], &event, &mut result), 3);
        assert_eq!(plain::ring_write::<0>(2, &event, &mut [0; 512], &mut result), 10);
        assert_eq!(plain::ring_read::<0>(2, &tape, &mut [0; 16], &mut result), 10);
        assert_eq!(plain::ring_fresh::<0>(3, 2, &mut [0; 40], &mut result), 10);
        assert_eq!((image, result), (guide::fresh(2, 0), vec![0xA5; length]));
    }
}

#[test]
fn further_bytes_are_kept() {
    let mut image = guide::fresh(2, 0);
    image.extend([0xA5; 13]);
    let mut result = [0xA5; 99];
    let mut ledger = [0xA5; 40];
    let list = events("0.0, 0.3, 0.7, 0.2");
    let number = plain::ring_run::<0>(&mut image, &tape(2, &list), &mut ledger, &mut result);
    assert_eq!(number, 0);
    assert_eq!(image[32..], [0xA5; 13]);
    assert_eq!(ledger[12..], [0xA5; 28]);
    assert_eq!((&result[64..80], &result[80..]), (&[0; 16][..], &[0xA5; 19][..]));
    let mut output = [0xA5; 600];
    assert_eq!(plain::ring_write::<0>(2, list.as_flattened(), &mut output, &mut result), 0);
    assert_eq!((&output[40..512], &output[512..]), (&[0; 472][..], &[0xA5; 88][..]));
}
