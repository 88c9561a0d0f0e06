//! What each refusal becomes as a value, by each call that has it.

use crate::support::{events, ring, tape, ENTRY};
use vengloaz::{fresh, load, read, run, step, stopped, survey, write, Event, Refusal};

/// Asserts that a call is refused so, and that its refusal has this number and place.
fn assert_refused<T: std::fmt::Debug + PartialEq>(answer: Result<T, Refusal>, due: Refusal, number: u8, place: u64) {
    assert_eq!(answer, Err(due));
    assert_eq!((due.number(), due.place()), (number, place));
}

#[test]
fn sizes_and_homes() {
    let one = [Event::put(0, 7)];
    for n in [0, 1, 65, 255, 256, 258, 1 << 32, (1 << 32) + 2, u64::MAX] {
        assert_refused(fresh(n, 0), Refusal::RingSize, 1, 0);
        assert_refused(write(n, &one), Refusal::RingSize, 1, 0);
        assert_refused(read(n, &tape(&one)), Refusal::RingSize, 1, 0);
        assert_refused(load(n, 1, 1), Refusal::RingSize, 1, 0);
        assert_refused(load(n, 0, u64::MAX), Refusal::RingSize, 1, 0);
    }
    for home in [64, 65, 255, 256, 1 << 32, u64::MAX] {
        assert_refused(fresh(64, home), Refusal::Home, 2, 0);
    }
    assert_refused(fresh(2, 2), Refusal::Home, 2, 0);
    assert_refused(fresh(1, 1), Refusal::RingSize, 1, 0);
}

#[test]
fn short_images() {
    let mut image = ring();
    for length in 0..32 {
        let short = &mut image[..length];
        assert_refused(step(short, Event::put(1, 7)), Refusal::ImageShort, 3, 0);
        assert_refused(run(short, &tape(&events(ENTRY)), &mut [0; 48]), Refusal::ImageShort, 3, 0);
        assert_refused(stopped(short), Refusal::ImageShort, 3, 0);
        assert_refused(survey(short), Refusal::ImageShort, 3, 0);
    }
    assert_eq!(image, ring());
}

/// A byte 0 that isn't 2 to 64, in buffers with room for such a ring and without it: not even a survey is answered.
#[test]
fn images_of_no_ring() {
    for n in [0, 1, 65, 66, 128, 255] {
        for length in [16, 32, 16 + 8 * 255] {
            let mut image = vec![0; length];
            image[0] = n;
            assert_refused(step(&mut image, Event::get(0)), Refusal::ImageUnsound, 4, 0);
            assert_refused(run(&mut image, &[], &mut []), Refusal::ImageUnsound, 4, 0);
            assert_refused(stopped(&image), Refusal::ImageUnsound, 4, 0);
            assert_refused(survey(&image), Refusal::ImageUnsound, 4, 0);
        }
    }
}

#[test]
fn unsound_images() {
    let mut image = ring();
    image[24] = 11;
    let before = image.clone();
    assert_refused(step(&mut image, Event::get(0)), Refusal::ImageUnsound, 4, 0);
    assert_refused(run(&mut image, &tape(&events(ENTRY)), &mut [0; 48]), Refusal::ImageUnsound, 4, 0);
    assert_refused(stopped(&image), Refusal::ImageUnsound, 4, 0);
    assert_eq!(survey(&image).map(|found| found.verdict), Ok(Err(Refusal::ImageUnsound)));
    assert_eq!(image, before);
}

#[test]
fn wrong_events() {
    let mut image = ring();
    for event in [Event::new(2, 0), Event::new(0, 8), Event { process: 0, code: 1, message: 7 }] {
        assert_refused(step(&mut image, event), Refusal::Event { place: 0 }, 5, 0);
        assert_eq!(image, ring());
        let mut list = vec![Event::put(1, 7); 200];
        list[150] = event;
        assert_refused(write(2, &list), Refusal::Event { place: 150 }, 5, 150);
    }
}

#[test]
fn lists_of_a_wrong_length() {
    let mut longest = vec![Event::get(1); 4_128_768];
    assert_eq!(write(2, &longest).map(|tape| tape.len()), Ok(65_536 * 512));
    longest.push(Event::get(1));
    assert_refused(write(2, &longest), Refusal::Length, 6, 0);
}

#[test]
fn seeds_and_counts_of_loads() {
    for seed in [0, 2_147_483_647, 1 << 31, 1 << 32, (1 << 32) + 1, 1 << 63, u64::MAX] {
        for count in [0, 1, 4_128_768, 4_128_769, u64::MAX] {
            assert_refused(load(2, seed, count), Refusal::Seed, 11, 0);
        }
    }
    // None of these is lent an output, which for the greatest of them no machine has.
    for count in [4_128_769, 1 << 32, (1 << 32) + 1, 1 << 63, u64::MAX] {
        for seed in [1, 2_147_483_646] {
            assert_refused(load(2, seed, count), Refusal::Length, 6, 0);
        }
    }
    assert_eq!(load(2, 1, 4_128_768).map(|tape| tape.len()), Ok(65_536 * 512));
}

/// A tape of three blocks, damaged: run and read refuse it alike, and the run has changed nothing.
#[test]
fn damaged_tapes() {
    let list: Vec<Event> = (0..150).map(|k| Event::put(k % 2, k.into())).collect();
    let good = tape(&list);
    let refused = |tape: &[u8], due: Refusal, number: u8, place: u64| {
        let (mut image, mut ledger) = (ring(), [0xEE; 48]);
        assert_refused(run(&mut image, tape, &mut ledger), due, number, place);
        assert_eq!((image, ledger), (ring(), [0xEE; 48]));
        assert_refused(read(2, tape), due, number, place);
    };
    for length in [1, 511, 513, 3 * 512 - 1] {
        refused(&good[..length], Refusal::Length, 6, 0);
    }
    let changed = |at: usize, to: u8, sealed: bool| {
        let mut tape = good.clone();
        tape[at] = to;
        if sealed {
            tape.chunks_mut(512).for_each(guide::seal);
        }
        tape
    };
    refused(&changed(512 + 100, 0xAA, false), Refusal::BlockCheck { block: 1 }, 7, 1);
    refused(&changed(2 * 512, 9, true), Refusal::BlockNumber { block: 2 }, 8, 2);
    refused(&changed(512 + 2, 62, true), Refusal::BlockNumber { block: 1 }, 8, 1);
    refused(&changed(2 * 512 + 2, 0, true), Refusal::BlockNumber { block: 2 }, 8, 2);
    refused(&[0; 512], Refusal::BlockNumber { block: 0 }, 8, 0);
    refused(&changed(512 + 8 + 8 * 5 + 1, 8, true), Refusal::Event { place: 68 }, 5, 68);
    refused(&changed(3 * 512 - 1, 1, true), Refusal::UnusedSlot { block: 2 }, 9, 2);
}

#[test]
fn short_ledgers() {
    let first_ten = tape(&events(ENTRY)[..10]);
    let mut image = ring();
    let mut ledger = [0xEE; 12];
    for length in 0..12 {
        assert_refused(run(&mut image, &first_ten, &mut ledger[..length]), Refusal::OutputShort, 10, 0);
    }
    assert_eq!((&image, ledger), (&ring(), [0xEE; 12]));
    assert_eq!(run(&mut image, &first_ten, &mut ledger).map(|ran| ran.counts.records), Ok(1));
    let none = run(&mut ring(), &tape(&[Event::get(0)]), &mut []);
    assert_eq!(none.map(|ran| ran.counts.records), Ok(0));
}

#[test]
fn every_refusal_comes_from_its_number() {
    for number in 1..=11 {
        let refusal = Refusal::from_number(number, 70).expect("there is one of this number");
        let place = if matches!(number, 5 | 7 | 8 | 9) { 70 } else { 0 };
        assert_eq!((u64::from(refusal.number()), refusal.place()), (number, place));
    }
    for number in [0, 12, 256 + 1, u64::MAX] {
        assert_eq!(Refusal::from_number(number, 0), None);
    }
}
