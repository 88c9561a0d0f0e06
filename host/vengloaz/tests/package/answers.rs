//! What the calls answer when they aren't refused.

use crate::support::{events, ring, tape, ENTRY};
use vengloaz::{
    fresh, load, read, records, run, step, stopped, survey, write, Counts, Event, Findings, Outcome, Ran, Record,
    Refusal, Stepped, Traffic,
};

/// The last image of entry 1, which entry 2 gives.
const LAST_IMAGE: [u8; 32] =
    [2, 0, 0, 0, 0, 0, 0, 0, 0, 0, 0, 0, 0, 0, 0, 0, 0, 1, 4, 0, 0, 0, 0, 0, 0, 0, 0, 0, 0, 0, 0, 0];

#[test]
fn entry_1_by_steps() {
    let mut image = ring();
    for (number, event) in events(ENTRY).into_iter().enumerate() {
        let due = match number {
            7 => Outcome::Fill(7),
            14 => Outcome::Sent,
            17 => Outcome::Take(7),
            19 => Outcome::Got,
            _ => Outcome::Moved,
        };
        let traffic = match number {
            2 | 12 => Traffic { requests: 1, departures: 0 },
            4 | 14 => Traffic { requests: 0, departures: 1 },
            _ => Traffic::default(),
        };
        assert_eq!(step(&mut image, event), Ok(Stepped { outcome: due, traffic }), "event {number}");
    }
    assert_eq!(image, LAST_IMAGE);
    assert_eq!(stopped(&image), Ok(true));
}

#[test]
fn entry_1_by_a_run() {
    let mut image = ring();
    let mut ledger = [0xEE; 50];
    let Ran { counts, traffic } = run(&mut image, &tape(&events(ENTRY)), &mut ledger).expect("entry 1 isn't refused");
    assert_eq!(traffic, Traffic { requests: 2, departures: 2 });
    assert_eq!(counts, Counts { puts: 1, gets: 1, fills: 1, takes: 1, sent: 1, got: 1, idle: 0, records: 4 });
    assert_eq!(counts.ledger_bytes(), 48);
    assert_eq!(image, LAST_IMAGE);
    assert_eq!(ledger[48..], [0xEE; 2]);
    let lines: Vec<Record> = records(&ledger[..48]).collect();
    let due = [
        Record { event: 7, process: 1, outcome: Outcome::Fill(7) },
        Record { event: 14, process: 1, outcome: Outcome::Sent },
        Record { event: 17, process: 0, outcome: Outcome::Take(7) },
        Record { event: 19, process: 0, outcome: Outcome::Got },
    ];
    assert_eq!(lines, due);
}

#[test]
fn each_count_has_its_own_field() {
    let counts =
        |events: &[Event]| run(&mut ring(), &tape(events), &mut [0; 60]).expect("these events are right").counts;
    let mut list = events(ENTRY);
    let some = Counts { puts: 1, gets: 1, fills: 1, records: 1, ..Counts::default() };
    assert_eq!(counts(&list[..11]), some);
    assert_eq!(counts(&list[..15]), Counts { sent: 1, records: 2, ..some });

    list.truncate(18);
    list.extend(events("1.0(8) 1.0(9) 0.2 0.4"));
    let some = Counts { puts: 2, gets: 1, fills: 1, takes: 1, sent: 1, got: 0, idle: 3, records: 3 };
    assert_eq!(counts(&list), some);

    list.extend(events("0.3 0.7 1.3 1.7 0.6 0.7 1.4 1.7 1.2"));
    assert_eq!(counts(&list), Counts { fills: 2, got: 1, records: 5, ..some });
}

#[test]
fn the_first_ten_events_stop_with_nothing_sent() {
    let mut image = ring();
    let counts = run(&mut image, &tape(&events(ENTRY)[..10]), &mut [0; 12]).expect("entry 3 isn't refused").counts;
    assert_eq!((counts.puts, counts.fills, counts.sent, counts.records), (1, 1, 0, 1));
    assert_eq!(stopped(&image), Ok(true));
}

#[test]
fn idle_events() {
    let mut image = ring();
    let quiet = |outcome: Outcome| Ok(Stepped { outcome, traffic: Traffic::default() });
    assert_eq!(step(&mut image, Event::new(1, 7)), quiet(Outcome::Idle));
    assert_eq!(image, ring());
    assert_eq!(step(&mut image, Event::put(1, 7)), quiet(Outcome::Moved));
    assert_eq!(step(&mut image, Event::put(1, 8)), quiet(Outcome::Idle));
    assert_eq!(image[28..], [7, 0, 0, 0]);
    assert_eq!(stopped(&image), Ok(false));
}

#[test]
fn a_message_keeps_all_its_bits() {
    let mut list = events(ENTRY);
    list[0].message = 0xFEDC_BA98;
    assert_eq!(read(2, &tape(&list)), Ok(list.clone()));
    let mut image = ring();
    for (number, event) in list.into_iter().enumerate() {
        let outcome = step(&mut image, event).map(|stepped| stepped.outcome);
        match number {
            7 => assert_eq!(outcome, Ok(Outcome::Fill(0xFEDC_BA98))),
            17 => assert_eq!(outcome, Ok(Outcome::Take(0xFEDC_BA98))),
            _ => assert!(outcome.is_ok()),
        }
    }
}

/// The events of a list on the fresh ring of N, home 0, that send something, with their requests and departures.
fn sending(n: u64, list: &str) -> Vec<(usize, u64, u64)> {
    let mut image = fresh(n, 0).expect("there is such a ring");
    let traffic = events(list).into_iter().map(|event| step(&mut image, event).expect("it is an event").traffic);
    let sending = traffic.enumerate().filter(|(_, traffic)| *traffic != Traffic::default());
    sending.map(|(number, traffic)| (number, traffic.requests, traffic.departures)).collect()
}

/// Process 1 passes on the request of its right for full: at the same time it asks for empty itself, or, later, wants
/// full too, for which it has asked.
#[test]
fn two_requests_of_one_event_and_none_where_it_has_asked() {
    assert_eq!(sending(3, "2.1 2.3 2.7 1.0(7) 1.3 1.5 1.7"), [(2, 1, 0), (6, 2, 0)]);
    assert_eq!(sending(3, "2.1 2.3 2.7 1.5 1.7 1.1 1.3 1.7"), [(2, 1, 0), (4, 1, 0)]);
}

/// The last request of process 1 finds the one that it passed on before, in event 9, still on the link to process 0.
#[test]
fn an_absorbed_request_counts() {
    let list = "1.0(7) 1.3 1.7 0.6 0.7 2.1 2.3 2.7 1.5 1.7 1.4 1.7 1.2 1.3 1.7 1.1 1.3 1.7";
    let due = [(2, 1, 0), (4, 0, 1), (7, 1, 0), (9, 1, 0), (14, 0, 1), (17, 1, 0)];
    assert_eq!(sending(3, list), due);
}

/// A list as one run, and event by event: the run's traffic is that of its steps, added up.
#[test]
fn the_traffic_of_a_run_is_that_of_its_steps() {
    for n in [2, 3, 8, 64] {
        let mut image = fresh(n, 1).expect("there is such a ring");
        let list = guide::guided(&image, 5_000, &mut guide::Random::new(n));
        let ran = run(&mut image.clone(), &guide::tape(n, &list), &mut [0; 60_000]).expect("the list isn't refused");
        let mut sum = Traffic::default();
        for event in list.as_chunks().0 {
            let event = Event::from_bytes(*event).expect("it is an event");
            let Traffic { requests, departures } = step(&mut image, event).expect("the list isn't refused").traffic;
            sum.requests += requests;
            sum.departures += departures;
        }
        assert_eq!(ran.traffic, sum);
        assert!(sum.requests > 100 && sum.departures > 100, "{sum:?}");
    }
}

/// No bytes are a tape of no events: after every event of entry 1 its run counts 0 and changes nothing.
#[test]
fn a_run_of_no_events() {
    assert_eq!((write(2, &[]), read(2, &[]), load(2, 1, 0)), (Ok(vec![]), Ok(vec![]), Ok(vec![])));
    let mut image = ring();
    for event in events(ENTRY) {
        step(&mut image, event).expect("entry 1 isn't refused");
        let (before, mut ledger) = (image.clone(), [0xEE; 12]);
        for length in [0, 1, 12] {
            assert_eq!(run(&mut image, &[], &mut ledger[..length]), Ok(Ran::default()));
        }
        assert_eq!((&image, ledger), (&before, [0xEE; 12]));
    }
}

/// What a survey finds in a sound image with these processes marked.
fn sound(full: u64, empty: u64) -> Findings {
    Findings { verdict: Ok(()), flags: 1, full, empty }
}

/// Nobody is marked in entry 1: each process gets the envelope as it wants it.
#[test]
fn a_survey_after_every_event() {
    let mut image = ring();
    assert_eq!(survey(&image), Ok(sound(0, 0)));
    for event in events(ENTRY) {
        step(&mut image, event).expect("entry 1 isn't refused");
        assert_eq!(survey(&image), Ok(sound(0, 0)));
        assert!(survey(&image).is_ok_and(|found| found.is_sound()));
    }
}

/// Process 63 of 64 waits for full with the empty envelope; and process 1 of 3 for empty while the full one goes by.
#[test]
fn a_survey_names_the_marked_processes() {
    let after = |n: u64, home: u64, list: &str| {
        let mut image = fresh(n, home).expect("there is such a ring");
        events(list).into_iter().for_each(|event| assert!(step(&mut image, event).is_ok()));
        survey(&image)
    };
    assert_eq!(after(64, 63, "63.1 63.3 63.7"), Ok(sound(1 << 63, 0)));
    let list = "0.0(7) 0.3 0.7 0.2 0.3 1.0(7) 1.3 2.1 2.3 2.7 1.5 1.7 0.5 0.7 1.4 1.7";
    assert_eq!(after(3, 0, list), Ok(sound(0, 1 << 1)));
}

/// Images that no ring gets to: no flag, two flags, marks in wrong stages and uncounted, and every bit set.
#[test]
fn a_survey_of_what_is_not_sound() {
    let unsound =
        |flags: u32, full: u64, empty: u64| Ok(Findings { verdict: Err(Refusal::ImageUnsound), flags, full, empty });
    let changed = |bytes: &[(usize, u8)]| {
        let mut image = ring();
        bytes.iter().for_each(|(at, to)| image[*at] = *to);
        survey(&image)
    };
    assert_eq!(changed(&[(17, 0)]), unsound(0, 0, 0));
    assert_eq!(changed(&[(25, 2)]), unsound(2, 0, 0));
    assert_eq!(changed(&[(17, 255), (25, 255)]), unsound(4, 0, 0));
    assert_eq!(changed(&[(18, 16), (26, 48)]), unsound(1, 0b11, 0b10));
    assert_eq!(changed(&[(3, 1)]), unsound(1, 0, 0));
    assert_eq!(changed(&[(15, 1)]), unsound(1, 0, 0));
    assert_eq!(changed(&[(24, 255), (26, 16), (3, 1)]), unsound(1, 0b10, 0));
    for n in 2..=64 {
        let mut image = vec![255; 16 + 8 * n + 5];
        image[0] = n as u8;
        let all = u64::MAX >> (64 - n);
        assert_eq!(survey(&image), unsound(2 * n as u32, all, all));
    }
}

/// Every ring and home: 16 + 8N bytes, all zero but N and the home's flag.
#[test]
fn fresh_rings() {
    for n in 2..=64 {
        for home in 0..n {
            let mut due = vec![0; 16 + 8 * n as usize];
            due[0] = n as u8;
            due[16 + 8 * home as usize + 1] = 1;
            assert_eq!(fresh(n, home), Ok(due));
        }
    }
}

/// Lists about as long as one, two and many blocks: the tape is that of plain, and reads back as the list.
#[test]
fn lists_are_written_and_read_back() {
    for length in [0, 1, 2, 62, 63, 64, 125, 126, 127, 4032, 4033, 65_535] {
        let list: Vec<Event> = (0..length).map(|k| Event::put((k % 64) as u8, 0xFFFF_FFFF - k)).collect();
        let bytes: Vec<u8> = list.iter().flat_map(|event| event.to_bytes()).collect();
        let written = write(64, &list).expect("these are events of a ring of 64");
        assert!(written == guide::tape(64, &bytes), "{length} events");
        assert!(read(64, &written) == Ok(list), "{length} events");
    }
}

/// The first events of seed 1 for four processes, by a calculation of its own.
const SEED_1: &str = "3.1 2.2 0.6 1.0(1115438165) 0.2 3.7 0.4 1.5 0.5 2.0(1505795335)";

#[test]
fn a_load_has_the_events_of_its_seed() {
    let list = read(4, &load(4, 1, 10).expect("it is a load")).expect("its tape is right");
    assert_eq!(list, events(SEED_1));
}

/// Loads of one, two and many blocks: the tape is that of plain and the writer's, and begins every longer one.
#[test]
fn loads_are_tapes_of_their_events() {
    for (n, seed) in [(2, 1), (3, 2_147_483_646), (37, 16_807), (64, 1_043_618_065)] {
        let longest = load(n, seed, 4_033).expect("it is a load");
        for length in [0, 1, 2, 62, 63, 64, 125, 126, 127, 4_032, 4_033] {
            let tape = load(n, seed, length as u64).expect("it is a load");
            assert!(tape == guide::load(n, seed, length), "{length} events");
            let list = read(n, &tape).expect("its tape is right");
            assert_eq!(list.len(), length);
            assert!(write(n, &list).as_ref() == Ok(&tape), "{length} events");
            assert!(tape[..length / 63 * 512] == longest[..length / 63 * 512], "{length} events");
        }
    }
}
