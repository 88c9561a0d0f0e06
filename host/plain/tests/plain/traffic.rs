//! Traffic against document 02, A.4: what each event sends, and the totals of a run.

use crate::support::*;

/// The traffic of each event of a list, by steps: requests, then departures.
fn traffic(n: u64, home: u64, list: &str) -> Vec<[u64; 2]> {
    let mut image = guide::fresh(n, home);
    let told = |event: &[u8; 8]| {
        let [_, _, requests, departures, ..] = step(&mut image, event).words;
        [requests, departures]
    };
    events(list).iter().map(told).collect()
}

/// All the traffic is that of these events, by their numbers; the others send nothing.
fn assert_traffic(n: u64, home: u64, list: &str, due: &[(usize, [u64; 2])]) {
    let told = traffic(n, home, list);
    let sending = told.iter().enumerate().filter(|(_, traffic)| **traffic != [0, 0]);
    assert_eq!(sending.map(|(number, traffic)| (number, *traffic)).collect::<Vec<_>>(), due, "{list}");
}

/// Entry 1: the two requests, and the two times that the envelope leaves, once at the end of the put.
#[test]
fn a_put_and_a_get_on_a_ring_of_two() {
    let list = "1.0, 1.3, 1.7, 0.6, 0.7, 1.4, 1.7, 1.2, 1.3, 1.7, 0.1, 0.3, 0.7, 1.5, 1.7, 0.4, 0.7, 0.2, 0.3, 0.7";
    assert_traffic(2, 0, list, &[(2, [1, 0]), (4, [0, 1]), (12, [1, 0]), (14, [0, 1])]);
}

/// Process 1 of 3 passes on the request of its right and asks for itself, both in one event.
#[test]
fn two_requests_of_one_event() {
    assert_traffic(3, 0, "2.1, 2.3, 2.7, 1.0, 1.3, 1.5, 1.7", &[(2, [1, 0]), (6, [2, 0])]);
}

/// What a process has asked for it doesn't ask again: the wish for full of its right, then its own.
#[test]
fn a_request_that_is_not_made_is_not_counted() {
    assert_traffic(3, 0, "2.1, 2.3, 2.7, 1.5, 1.7, 1.1, 1.3, 1.7", &[(2, [1, 0]), (4, [1, 0])]);
}

/// The traffic of an event, by the image before and after it: bits 2 and 3 that have come on, each a request; the have
/// flag that put has turned off; and how many of the requests found one of their kind on the link to the left.
fn seen(before: &[u8], event: &[u8], after: &[u8]) -> ([u64; 2], u64) {
    let n = usize::from(before[0]);
    let process = usize::from(event[0]);
    let record = |image: &[u8], process: usize| [image[16 + 8 * process + 1], image[16 + 8 * process + 2]];
    let [[had, asked], [has, asks]] = [before, after].map(|image| record(image, process));
    let made = asks & !asked & 0b1100;
    let [_, waiting] = record(before, (process + n - 1) % n);
    let absorbed = made << 4 & waiting;
    let left = had & !has & 1;
    ([made.count_ones().into(), left.into()], absorbed.count_ones().into())
}

/// Every event of guided lists; at the end all that there may be has come: two requests, absorbed ones, departures.
#[test]
fn the_images_show_what_was_sent() {
    let [mut two, mut all_absorbed, mut departures] = [0; 3];
    for n in [2, 3, 8, 37, 64] {
        let mut image = guide::fresh(n, 0);
        let list = guide::guided(&image, 20_000, &mut guide::Random::new(n + 2));
        for event in list.chunks_exact(8) {
            let before = image.clone();
            let [outcome, _, requests, departed, ..] = step(&mut image, event).words;
            let (due, absorbed) = seen(&before, event, &image);
            assert_eq!([requests, departed], due);
            assert!(outcome != 0 || due == [0, 0], "an idle event sends nothing");
            two += u64::from(requests == 2);
            all_absorbed += absorbed;
            departures += departed;
        }
    }
    assert!(two > 1_000 && all_absorbed > 50 && departures > 10_000, "{two}, {all_absorbed}, {departures}");
}

/// The traffic of a put on an image, and of a run on the fresh ring of two.
fn of_put<const FAULT: u8>(image: &[u8], process: u64) -> [u64; 2] {
    let event = guide::event(process, 7, 0);
    let [_, _, requests, departures, ..] =
        answer(|result| plain::ring_step::<FAULT>(&mut image.to_vec(), &event, result)).words;
    [requests, departures]
}

fn of_run<const FAULT: u8>(list: &str) -> [u64; 2] {
    let tape = tape(2, &events(list));
    let [.., requests, departures] =
        answer(|result| plain::ring_run::<FAULT>(&mut guide::fresh(2, 0), &tape, &mut [], result)).words;
    [requests, departures]
}

#[test]
fn faults_of_traffic_are_seen() {
    let (mut image, _) = after(3, 0, &events("2.1, 2.3, 2.7, 1.0, 1.3, 1.5"));
    assert_eq!([of_put::<0>(&image, 1), of_put::<25>(&image, 1)], [[2, 0], [1, 0]]);
    image[16 + 2] = 1 << 7; // a request for empty waits on the link to process 0
    assert_eq!([of_put::<0>(&image, 1), of_put::<24>(&image, 1)], [[2, 0], [1, 0]]);
    let (image, _) = after(2, 0, &events("0.0, 0.3, 0.7, 0.2, 0.3, 1.1, 1.3, 1.7, 0.5"));
    assert_eq!([of_put::<0>(&image, 0), of_put::<26>(&image, 0)], [[0, 1], [0, 0]]);
    let list = "1.1, 1.3, 1.7, 0.5, 0.7, 0.1";
    assert_eq!([of_run::<0>(list), of_run::<27>(list)], [[1, 0], [0, 0]]);
}
