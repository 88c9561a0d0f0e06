//! Where a sample ends stopped, puts and gets balance; where it ends moving, it could.

use crate::support::*;
use samples::{all, Sample};

fn accepted() -> impl Iterator<Item = Sample> {
    all().into_iter().filter(|sample| refusal(sample).is_none())
}

#[test]
fn a_stopped_ring_has_ended_as_many_as_it_can() {
    for sample in accepted().filter(ends_stopped) {
        let [puts, gets, fills, takes, sent, got, _] = counts(&sample);
        assert_eq!((sent, got, takes), (puts.min(gets), sent, got), "{}", sample.name);
        assert!(fills == sent || fills == sent + 1, "{}", sample.name);
    }
}

/// Events 2 to 7 that would not be idle.
fn possible(image: &[u8]) -> Vec<(u64, u64)> {
    let events = (0..u64::from(image[0])).flat_map(|process| (2..8).map(move |code| (process, code)));
    events.filter(|(process, code)| step(&mut image.to_vec(), &guide::event(*process, *code, 0)) != 0).collect()
}

#[test]
fn stopped_is_that_events_2_to_7_are_idle() {
    for sample in accepted() {
        assert_eq!(ends_stopped(&sample), possible(&last_image(&sample)).is_empty(), "{}", sample.name);
    }
}

/// The event of the name, at the last process, and no other.
#[test]
fn a_ring_that_moves_in_one_way_does_so() {
    for sample in accepted() {
        if let Some(what) = sample.name.strip_prefix("moving-") {
            let code = what.split('-').next().unwrap().parse().unwrap();
            assert_eq!(possible(&last_image(&sample)), [(1, code)], "{}", sample.name);
        }
    }
}

/// How entry 10 and its mirror image end.
#[test]
fn a_get_or_a_put_stops_a_ring_that_goes_round() {
    let ends = |name: String| {
        let samples = all();
        let sample = samples.iter().find(|sample| sample.name == name).expect("it is there");
        let [puts, gets, _, _, sent, got, _] = counts(sample);
        (puts, gets, sent, got, ends_stopped(sample))
    };
    for n in [2, 3] {
        for alone in ["", "-rounds"] {
            assert_eq!(ends(format!("entry-10-n{n}{alone}")), (2, 1, 2, 1, false));
            assert_eq!(ends(format!("mirror-n{n}{alone}")), (2, 2, 2, 2, false));
        }
        assert_eq!(ends(format!("entry-10-n{n}-get")), (2, 2, 2, 2, true));
        assert_eq!(ends(format!("mirror-n{n}-put")), (3, 2, 2, 2, true));
        assert_eq!(ends(format!("mirror-n{n}-put-get")), (3, 3, 3, 3, true));
    }
    assert_eq!(ends("entry-10-n3-again".into()), (3, 2, 3, 2, false));
    assert_eq!(ends("mirror-n3-again".into()), (3, 3, 3, 3, false));
}

/// Numbers of every length are printed: events, processes, messages and counts.
#[test]
fn every_length_of_a_number_is_printed() {
    let mut seen = vec![[false; 11]; 5];
    for sample in accepted() {
        for line in text(&sample).lines() {
            let words: Vec<&str> = line.split(' ').collect();
            match words[..] {
                [event, process, "fill" | "take", message] => {
                    [event, process, message].iter().zip(&mut seen).for_each(|(word, seen)| seen[word.len()] = true);
                }
                ["puts", puts, .., "idle", idle] => {
                    seen[3][puts.len()] = true;
                    seen[4][idle.len()] = true;
                }
                _ => {}
            }
        }
    }
    let least = [4, 2, 10, 2, 3];
    for (seen, most) in seen.iter().zip(least) {
        assert!(seen[1..=most].iter().all(|seen| *seen), "{seen:?}");
    }
}
