//! A tape of no events is no bytes: for the writer, the reader and the run. Loads and ringrun's text of none stand with
//! the others.

use crate::support::*;

#[test]
fn writer_and_reader_turn_nothing_into_nothing() {
    for n in [2, 3, 37, 64] {
        for room in [0, 1, 7, 8, 511, 512, 600] {
            let mut output = vec![0xA5; room];
            assert_eq!(answer(|result| plain::ring_write::<0>(n, &[], &mut output, result)), done(&[0]));
            assert_eq!(answer(|result| plain::ring_read::<0>(n, &[], &mut output, result)), done(&[0]));
            assert_eq!(output, vec![0xA5; room]);
        }
    }
}

#[test]
fn a_run_of_nothing_counts_nothing_and_leaves_image_and_ledger() {
    for n in [2, 3, 37, 64] {
        let mut image = guide::fresh(n, 1);
        let list = guide::guided(&image, 300, &mut guide::Random::new(n));
        run(&mut image, &guide::tape(n, &list), 12 * 300);
        for room in [0, 1, 11, 12, 13] {
            let before = image.clone();
            assert_eq!(run(&mut image, &[], room), (done(&[0; 10]), vec![0xA5; room]));
            assert_eq!(image, before);
        }
    }
}

#[test]
fn a_run_of_nothing_is_refused_by_its_image_and_by_a_short_result() {
    assert_eq!(run(&mut guide::fresh(2, 0)[..31], &[], 0).0, refused(3, 0));
    let mut unsound = guide::fresh(2, 0);
    unsound[5] = 1;
    assert_eq!(run(&mut unsound, &[], 0).0, refused(4, 0));
    assert_eq!(plain::ring_run::<0>(&mut guide::fresh(2, 0), &[], &mut [], &mut [0; 79]), 10);
    assert_eq!(plain::ring_write::<0>(2, &[], &mut [], &mut [0; 79]), 10);
    assert_eq!(plain::ring_read::<0>(2, &[], &mut [], &mut [0; 79]), 10);
}

#[test]
fn faults_of_tapes_of_no_events_are_seen() {
    assert_eq!(answer(|result| plain::ring_write::<18>(2, &[], &mut [], result)), refused(6, 0));
    assert_eq!(answer(|result| plain::ring_read::<18>(2, &[], &mut [], result)), refused(6, 0));
    assert_eq!(answer(|result| plain::ring_read::<19>(2, &[0; 512], &mut [], result)), done(&[0]));
    let mut ledger = [0xA5; 12];
    let run = answer(|result| plain::ring_run::<20>(&mut guide::fresh(2, 0), &[], &mut ledger, result));
    assert_eq!((run, ledger[0], ledger[1]), (done(&[]), 0, 0xA5));
}
