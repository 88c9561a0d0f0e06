//! The guided lists do what they are for, and every planted fault shows itself.

use crate::support::*;

#[test]
fn guided_lists_are_mostly_possible_and_full_of_records() {
    for n in [2, 3, 8, 37, 64] {
        let list = guide::guided(&guide::fresh(n, 0), 20_000, &mut guide::Random::new(n));
        let (answer, _) = run(&mut guide::fresh(n, 0), &guide::tape(n, &list), 240_000);
        let [puts, gets, fills, takes, sent, got, idle, ..] = answer.words;
        assert!(idle < 5_000, "idle {idle} of 20,000 for {n}");
        let least = [puts, gets, fills, takes, sent, got].into_iter().min().unwrap();
        assert!(least > 200, "{least} for {n}");
    }
}

/// The same run by one call and by a step an event.
#[test]
fn a_run_is_its_steps() {
    for n in [2, 3, 8, 37, 64] {
        let list = guide::guided(&guide::fresh(n, 1), 5_000, &mut guide::Random::new(n + 1));
        let mut whole = guide::fresh(n, 1);
        let (ran, ledger) = run(&mut whole, &guide::tape(n, &list), 12 * 5_000);
        let mut image = guide::fresh(n, 1);
        let mut records = Vec::new();
        let mut counts = [0; 10];
        for (number, event) in list.chunks_exact(8).enumerate() {
            let [kind, message, requests, departures, ..] = step(&mut image, event).words;
            counts[8] += requests;
            counts[9] += departures;
            if event[1] < 2 && kind != 0 {
                counts[usize::from(event[1])] += 1;
            }
            if kind >= 2 {
                records.extend((number as u32).to_le_bytes());
                records.extend([event[0], kind as u8, 0, 0]);
                records.extend((message as u32).to_le_bytes());
                counts[kind as usize] += 1;
                counts[7] += 1;
            }
            counts[6] += u64::from(kind == 0);
        }
        assert_eq!((ran, &ledger[..records.len()]), (done(&counts), &records[..]));
        assert_eq!(whole, image);
        let mut exact = guide::fresh(n, 1);
        let (ran, ledger) = run(&mut exact, &guide::tape(n, &list), records.len());
        assert_eq!((ran, ledger, exact), (done(&counts), records.clone(), image));
        let mut short = guide::fresh(n, 1);
        let (ran, _) = run(&mut short, &guide::tape(n, &list), records.len() - 1);
        assert_eq!((ran, short), (refused(10, 0), guide::fresh(n, 1)));
    }
}

/// All that a run shows: its answer, the image, the ledger.
fn seen<const FAULT: u8>(n: u64, tape: &[u8], room: usize) -> (Answer, Vec<u8>, Vec<u8>) {
    let mut image = guide::fresh(n, 0);
    let mut ledger = vec![0; room];
    let answer = answer(|result| plain::ring_run::<FAULT>(&mut image, tape, &mut ledger, result));
    (answer, image, ledger)
}

/// Whether a fault shows in runs of guided lists, with a ledger that has room for all and one that
/// fits exactly.
fn differs_in_runs<const FAULT: u8>() -> bool {
    [2, 64].into_iter().any(|n| {
        let list = guide::guided(&guide::fresh(n, 0), 70_000, &mut guide::Random::new(5));
        let tape = guide::tape(n, &list);
        let room = 12 * 70_000;
        let exact = 12 * seen::<0>(n, &tape, room).0.words[7] as usize;
        let differs = |room| seen::<FAULT>(n, &tape, room) != seen::<0>(n, &tape, room);
        differs(room) || differs(exact)
    })
}

/// Whether a fault shows in the image after some step of a guided list.
fn differs_in_steps<const FAULT: u8>() -> bool {
    [2, 3, 8, 37, 64].into_iter().any(|n| {
        let list = guide::guided(&guide::fresh(n, 0), 20_000, &mut guide::Random::new(9));
        let mut right = guide::fresh(n, 0);
        let mut wrong = right.clone();
        list.chunks_exact(8).any(|event| {
            let expected = step(&mut right, event);
            let seen = answer(|result| plain::ring_step::<FAULT>(&mut wrong, event, result));
            (seen, &wrong) != (expected, &right)
        })
    })
}

#[test]
fn faults_of_events_are_seen() {
    assert!(!differs_in_steps::<0>());
    assert!(differs_in_steps::<1>());
    assert!(differs_in_steps::<2>());
    assert!(differs_in_steps::<3>());
    assert!(differs_in_steps::<4>());
    assert!(differs_in_steps::<5>());
    assert!(differs_in_steps::<10>());
    assert!(differs_in_steps::<24>());
    assert!(differs_in_steps::<25>());
    assert!(differs_in_steps::<26>());
}

#[test]
fn faults_of_runs_are_seen() {
    assert!(!differs_in_runs::<0>());
    assert!(differs_in_runs::<8>());
    assert!(!differs_in_runs::<10>(), "a run tells all its words");
    assert!(differs_in_runs::<11>());
    assert!(differs_in_runs::<27>());
}

#[test]
fn faults_of_answers_are_seen() {
    let tape = tape(2, &events("0.0, 0.3, 0.3"));
    let idle_last = |answer: Answer| answer.words[6];
    assert_eq!(idle_last(seen::<0>(2, &tape, 36).0), 1);
    assert_eq!(idle_last(seen::<7>(2, &tape, 36).0), 0);
    let mut wrong = tape.clone();
    wrong[0] = 1;
    assert_eq!(seen::<0>(2, &wrong, 36).0, refused(7, 0));
    assert_eq!(seen::<6>(2, &wrong, 36).0, refused(8, 0));
    let mut image = guide::fresh(2, 0);
    image[16] = 6;
    image[18] = 1 << 5;
    image[4] = 1;
    assert_eq!(answer(|result| plain::ring_stopped::<0>(&image, result)), refused(4, 0));
    assert_eq!(answer(|result| plain::ring_stopped::<9>(&image, result)).number, 0);
    let mut image = guide::fresh(2, 0);
    image[26] = 1 << 7;
    assert_eq!(answer(|result| plain::ring_stopped::<0>(&image, result)), done(&[0]));
    assert_eq!(answer(|result| plain::ring_stopped::<14>(&image, result)), done(&[1]));
}

#[test]
fn faults_of_tapes_are_seen() {
    let mut wrong = guide::tape(2, &guide::uniform(2, 64, &mut guide::Random::new(1)));
    wrong[512 + 9] = 8;
    give_check(&mut wrong[512..]);
    assert_eq!(seen::<0>(2, &wrong, 0).0, refused(5, 63));
    assert_eq!(seen::<12>(2, &wrong, 0).0, refused(5, 0));
    let mut tape = tape(2, &[guide::event(0, 0, 3 * 65_536 + 13_103)]);
    assert_eq!(tape[6..8], [0, 0], "the upper half is 0");
    tape[6..8].fill(255);
    assert_eq!(seen::<0>(2, &tape, 12).0, refused(7, 0));
    assert_eq!(seen::<13>(2, &tape, 12).0.number, 0);
}
