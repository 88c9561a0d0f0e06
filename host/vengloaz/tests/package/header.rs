//! The numbers of `include/vengloaz.h`, each held against what the proved calls read and write there.

use crate::support::{events, ledger, ring, tape, ENTRY};
use std::cell::RefCell;
use std::collections::{BTreeMap, BTreeSet};
use vengloaz::{fresh, load, raw, read, run, step, write, Event, Outcome, Ran, Refusal};

const HEADER: &str = include_str!("../../../../include/vengloaz.h");

/// The constants of the header by their names, without `RING_`, and which of them have been used.
struct Numbers {
    all: BTreeMap<&'static str, usize>,
    used: RefCell<BTreeSet<&'static str>>,
}

impl Numbers {
    fn new() -> Self {
        let constant = |line: &'static str| {
            let (name, rest) = line.trim().strip_prefix("RING_")?.split_once(" = ")?;
            let digits = rest.split([',', ' ']).next()?;
            Some((name, digits.parse().unwrap_or_else(|_| panic!("{name} is {digits}"))))
        };
        Numbers { all: HEADER.lines().filter_map(constant).collect(), used: RefCell::default() }
    }

    fn of(&self, name: &'static str) -> usize {
        self.used.borrow_mut().insert(name);
        *self.all.get(name).unwrap_or_else(|| panic!("the header has no RING_{name}"))
    }

    /// Where a field of a process's record stands.
    fn at(&self, process: usize, field: &'static str) -> usize {
        self.of("HEADER_SIZE") + process * self.of("PROCESS_SIZE") + self.of(field)
    }
}

/// A number of 32 bits.
fn number(bytes: &[u8], at: usize) -> u32 {
    u32::from_le_bytes(bytes[at..at + 4].try_into().expect("it has four bytes"))
}

/// Word k of a result slice.
fn word(result: &[u8], k: usize) -> u64 {
    u64::from_le_bytes(result[8 * k..8 * k + 8].try_into().expect("it has eight bytes"))
}

/// The image after a list of events on the fresh ring of N with home 0.
fn after(n: u64, list: &str) -> Vec<u8> {
    let mut image = fresh(n, 0).expect("there is such a ring");
    for event in events(list) {
        step(&mut image, event).expect("the list isn't refused");
    }
    image
}

/// The image after the first so many events of entry 1.
fn after_first(count: usize) -> Vec<u8> {
    let first: Vec<&str> = ENTRY.split(' ').take(count).collect();
    after(2, &first.join(" "))
}

#[test]
fn every_number_is_that_of_the_calls() {
    let numbers = Numbers::new();
    sizes(&numbers);
    refusals(&numbers);
    header(&numbers);
    processes(&numbers);
    stages(&numbers);
    steps(&numbers);
    blocks(&numbers);
    records(&numbers);
    loads(&numbers);
    words(&numbers);
    surveys(&numbers);
    let used = numbers.used.borrow();
    let unused: Vec<_> = numbers.all.keys().filter(|name| !used.contains(*name)).collect();
    assert!(unused.is_empty(), "held against nothing: {unused:?}");
}

fn sizes(numbers: &Numbers) {
    let (least, most) = (numbers.of("LEAST") as u64, numbers.of("MOST") as u64);
    for n in 0..=100 {
        let image = fresh(n, 0);
        assert_eq!(image.is_ok(), (least..=most).contains(&n));
        if let Ok(image) = image {
            assert_eq!(image.len(), numbers.of("HEADER_SIZE") + n as usize * numbers.of("PROCESS_SIZE"));
        }
    }

    let event = numbers.of("EVENT_SIZE");
    for length in 0..20 {
        assert_eq!(raw::ring_step(&mut ring(), &vec![0; length], &mut [0; 80]) == 0, length == event);
    }

    let (block, slots) = (numbers.of("BLOCK_SIZE"), numbers.of("BLOCK_EVENTS"));
    assert_eq!(tape(&vec![Event::get(0); slots]).len(), block);
    assert_eq!(tape(&vec![Event::get(0); slots + 1]).len(), 2 * block);
    let most = numbers.of("MOST_BLOCKS");
    let refused = |blocks: usize| run(&mut ring(), &vec![0; blocks * block], &mut []);
    assert_eq!(refused(most), Err(Refusal::BlockNumber { block: 0 }));
    assert_eq!(refused(most + 1), Err(Refusal::Length));
    let most = numbers.of("MOST_EVENTS") as u64;
    assert_eq!(load(2, 1, most).map(|tape| tape.len()), Ok(numbers.of("MOST_BLOCKS") * block));
    assert_eq!(load(2, 1, most + 1), Err(Refusal::Length));

    assert_eq!(ledger(ENTRY).len(), 4 * numbers.of("RECORD_SIZE"));
    let least = numbers.of("RESULT_SIZE");
    assert_eq!(raw::ring_stopped(&ring(), &mut vec![0; least]), 0);
    assert_eq!(raw::ring_stopped(&ring(), &mut vec![0; least - 1]), numbers.of("REFUSED_OUTPUT") as u64);
}

fn refusals(numbers: &Numbers) {
    let named = [
        ("REFUSED_SIZE", Refusal::RingSize),
        ("REFUSED_HOME", Refusal::Home),
        ("REFUSED_SHORT", Refusal::ImageShort),
        ("REFUSED_UNSOUND", Refusal::ImageUnsound),
        ("REFUSED_EVENT", Refusal::Event { place: 0 }),
        ("REFUSED_LENGTH", Refusal::Length),
        ("REFUSED_CHECK", Refusal::BlockCheck { block: 0 }),
        ("REFUSED_BLOCK", Refusal::BlockNumber { block: 0 }),
        ("REFUSED_UNUSED", Refusal::UnusedSlot { block: 0 }),
        ("REFUSED_OUTPUT", Refusal::OutputShort),
        ("REFUSED_SEED", Refusal::Seed),
    ];
    for (name, refusal) in named {
        assert_eq!(numbers.of(name), usize::from(refusal.number()), "{name}");
    }
    assert_eq!(raw::ring_stopped(&ring(), &mut [0; 80]), numbers.of("DONE") as u64);
    let mut list = vec![Event::get(0); 100];
    list[70] = Event::new(2, 1);
    let mut result = [0; 80];
    let bytes: Vec<u8> = list.iter().flat_map(|event| event.to_bytes()).collect();
    raw::ring_write(2, &bytes, &mut [0; 1024], &mut result);
    assert_eq!(word(&result, numbers.of("WORD_PLACE")), 70);
}

fn header(numbers: &Numbers) {
    assert_eq!(fresh(37, 0).expect("it is a ring")[numbers.of("HEADER_N")], 37);
    let status = |image: Vec<u8>| image[numbers.of("HEADER_STATUS")];
    assert_eq!((status(after_first(7)), status(after_first(8))), (0, 1));
    let markers = |image: Vec<u8>| usize::from(image[numbers.of("HEADER_MARKERS")]);
    assert_eq!(markers(after_first(5)), numbers.of("EMPTY_WANTED"));
    assert_eq!(markers(after_first(15)), numbers.of("FULL_WANTED"));
    assert_eq!(number(&after(2, "0.0(305419896) 0.3 0.7 0.2"), numbers.of("HEADER_MESSAGE")), 305_419_896);
    let counts = |image: &[u8]| [image[numbers.of("HEADER_FULL_COUNT")], image[numbers.of("HEADER_EMPTY_COUNT")]];
    assert_eq!((counts(&marked_full()), counts(&marked_empty())), ([1, 0], [0, 1]));
}

/// Process 0 waits for full and has the empty envelope, and nobody else wants it: it is marked.
fn marked_full() -> Vec<u8> {
    after(2, "0.1 0.3 0.7")
}

/// Process 1 waits for empty, and the full envelope has just passed it: it is marked.
fn marked_empty() -> Vec<u8> {
    after(3, "0.0(7) 0.3 0.7 0.2 0.3 1.0(7) 1.3 2.1 2.3 2.7 1.5 1.7 0.5 0.7 1.4 1.7")
}

fn processes(numbers: &Numbers) {
    let flags = |image: Vec<u8>, process| usize::from(image[numbers.at(process, "PROCESS_FLAGS")]);
    assert_eq!(flags(fresh(64, 63).expect("it is a ring"), 63), numbers.of("HAVE"));
    assert_eq!(flags(after_first(5), 1), numbers.of("ARRIVING"));
    assert_eq!(flags(after_first(2), 1), numbers.of("NEWS"));
    assert_eq!(number(&after(2, "1.0(305419896)"), numbers.at(1, "PROCESS_NOTE")), 305_419_896);

    let requests = |image: Vec<u8>, process| usize::from(image[numbers.at(process, "PROCESS_REQUESTS")]);
    assert_eq!(requests(after_first(3), 0), numbers.of("LINK_EMPTY"));
    assert_eq!(requests(after_first(3), 1), numbers.of("ASKED_EMPTY"));
    assert_eq!(requests(after_first(4), 0), numbers.of("RIGHT_ASKED_EMPTY"));
    assert_eq!(requests(after_first(13), 0), numbers.of("ASKED_FULL"));
    assert_eq!(requests(after_first(13), 1), numbers.of("LINK_FULL") | numbers.of("ASKED_EMPTY"));
    assert_eq!(requests(after_first(14), 1), numbers.of("RIGHT_ASKED_FULL") | numbers.of("ASKED_EMPTY"));
    assert_eq!(requests(marked_full(), 0), numbers.of("MARKED_FULL"));
    assert_eq!(requests(marked_empty(), 1), numbers.of("MARKED_EMPTY"));
}

/// The stages through which entry 1's put and get go, after so many events.
fn stages(numbers: &Numbers) {
    let stages = [
        (0, 1, "STAGE_IDLE"),
        (1, 1, "STAGE_SEND_TOLD"),
        (2, 1, "STAGE_SEND_WAITING"),
        (7, 1, "STAGE_MAY_FILL"),
        (8, 1, "STAGE_FILLED_TOLD"),
        (9, 1, "STAGE_FILLED"),
        (15, 1, "STAGE_IDLE"),
        (11, 0, "STAGE_RECEIVE_TOLD"),
        (12, 0, "STAGE_RECEIVE_WAITING"),
        (17, 0, "STAGE_MAY_EMPTY"),
        (18, 0, "STAGE_EMPTIED_TOLD"),
        (19, 0, "STAGE_EMPTIED"),
        (20, 0, "STAGE_IDLE"),
    ];
    for (count, process, name) in stages {
        let stage = after_first(count)[numbers.at(process, "PROCESS_STAGE")];
        assert_eq!(usize::from(stage), numbers.of(name), "after {count} events");
    }
}

/// Entry 1 in the header's own words, through the library's own function.
fn steps(numbers: &Numbers) {
    let list = [
        (1, "WISH_PUT", "MOVED"),
        (1, "HEAR_MAIN", "MOVED"),
        (1, "PUT_ACTS", "MOVED"),
        (1, "PUT_ACTS", "IDLE"),
        (0, "HEAR_EMPTY", "MOVED"),
        (0, "PUT_ACTS", "MOVED"),
        (1, "HEAR_ENVELOPE", "MOVED"),
        (1, "PUT_ACTS", "MOVED"),
        (1, "WORK", "FILL"),
        (1, "HEAR_MAIN", "MOVED"),
        (1, "PUT_ACTS", "MOVED"),
        (0, "WISH_GET", "MOVED"),
        (0, "HEAR_MAIN", "MOVED"),
        (0, "PUT_ACTS", "MOVED"),
        (1, "HEAR_FULL", "MOVED"),
        (1, "PUT_ACTS", "SENT"),
        (0, "HEAR_ENVELOPE", "MOVED"),
        (0, "PUT_ACTS", "MOVED"),
        (0, "WORK", "TAKE"),
        (0, "HEAR_MAIN", "MOVED"),
        (0, "PUT_ACTS", "GOT"),
    ];
    let mut image = ring();
    for (number, (process, code, outcome)) in list.into_iter().enumerate() {
        let mut event = vec![0; numbers.of("EVENT_SIZE")];
        event[numbers.of("EVENT_PROCESS")] = process;
        event[numbers.of("EVENT_CODE")] = numbers.of(code) as u8;
        let at = numbers.of("EVENT_MESSAGE");
        event[at..at + 4].copy_from_slice(&(if code == "WISH_PUT" { 305_419_896_u32 } else { 0 }).to_le_bytes());
        let mut result = [0xEE; 80];
        assert_eq!(raw::ring_step(&mut image, &event, &mut result), 0);
        assert_eq!(word(&result, numbers.of("WORD_OUTCOME")), numbers.of(outcome) as u64, "{process} {code}");
        let due = if ["FILL", "TAKE"].contains(&outcome) { 305_419_896 } else { 0 };
        assert_eq!(word(&result, numbers.of("WORD_MESSAGE")), due, "{process} {code}");
        let told = ["WORD_STEP_REQUESTS", "WORD_STEP_DEPARTURES"].map(|name| word(&result, numbers.of(name)));
        let due = match number {
            2 | 13 => [1, 0],
            5 | 15 => [0, 1],
            _ => [0, 0],
        };
        assert_eq!(told, due, "{process} {code}");
    }
    let named = [
        ("IDLE", Outcome::Idle),
        ("MOVED", Outcome::Moved),
        ("FILL", Outcome::Fill(0)),
        ("TAKE", Outcome::Take(0)),
        ("SENT", Outcome::Sent),
        ("GOT", Outcome::Got),
    ];
    for (name, outcome) in named {
        assert_eq!(numbers.of(name), usize::from(outcome.number()));
    }
}

fn blocks(numbers: &Numbers) {
    let list = [&vec![Event::get(0); 63][..], &[Event::put(1, 7)]].concat();
    let tape = tape(&list);
    let (_, last) = tape.split_at(numbers.of("BLOCK_SIZE"));
    let half = |at: usize| u16::from_le_bytes([last[at], last[at + 1]]);
    assert_eq!((half(numbers.of("BLOCK_NUMBER")), half(numbers.of("BLOCK_COUNT"))), (1, 1));
    let at = numbers.of("BLOCK_SLOTS");
    assert_eq!(last[at..at + 8], Event::put(1, 7).to_bytes());

    // Entry 6: the check of the one event.
    let tape = write(2, &[Event::put(1, 7)]).expect("it is an event of a ring of two");
    assert_eq!(number(&tape, numbers.of("BLOCK_CHECK")), 9 + 65_536 * 2_255);
}

fn records(numbers: &Numbers) {
    let ledger = ledger(&ENTRY.replace("(7)", "(305419896)"));
    let due = [(7, 1, "FILL", 305_419_896), (14, 1, "SENT", 0), (17, 0, "TAKE", 305_419_896), (19, 0, "GOT", 0)];
    for (record, (event, process, code, message)) in ledger.chunks(numbers.of("RECORD_SIZE")).zip(due) {
        assert_eq!(number(record, numbers.of("RECORD_EVENT")), event);
        assert_eq!(record[numbers.of("RECORD_PROCESS")], process);
        assert_eq!(usize::from(record[numbers.of("RECORD_CODE")]), numbers.of(code));
        assert_eq!(number(record, numbers.of("RECORD_MESSAGE")), message);
    }
}

fn loads(numbers: &Numbers) {
    let (least, most) = (numbers.of("LEAST_SEED") as u64, numbers.of("MOST_SEED") as u64);
    for seed in [least - 1, most + 1] {
        let number = raw::ring_load(2, seed, 1, &mut [0; 512], &mut [0; 80]);
        assert_eq!(number, numbers.of("REFUSED_SEED") as u64, "seed {seed}");
    }
    for seed in [least, most] {
        let events = load(2, seed, 4_032).and_then(|tape| read(2, &tape)).expect("it is a load");
        let codes: BTreeSet<usize> = events.iter().map(|event| usize::from(event.code)).collect();
        assert_eq!(codes, (numbers.of("WISH_PUT")..=numbers.of("PUT_ACTS")).collect(), "seed {seed}");
    }
}

/// The counts and the traffic after each beginning of a list, in which each goes its own way.
fn words(numbers: &Numbers) {
    let list = events(&format!("{ENTRY} 1.0(8) 1.0(9) 0.2 0.4 1.3 1.7 0.6 0.7"));
    for count in 0..=list.len() {
        let tape = tape(&list[..count]);
        let mut result = [0xEE; 80];
        raw::ring_run(&mut ring(), &tape, &mut [0; 120], &mut result);
        let Ran { counts, traffic } = run(&mut ring(), &tape, &mut [0; 120]).expect("the list isn't refused");
        let told = |name: &'static str| word(&result, numbers.of(name));
        assert_eq!((told("WORD_PUTS"), told("WORD_GETS")), (counts.puts, counts.gets));
        assert_eq!((told("WORD_FILLS"), told("WORD_TAKES")), (counts.fills, counts.takes));
        assert_eq!((told("WORD_SENT"), told("WORD_GOT")), (counts.sent, counts.got));
        assert_eq!((told("WORD_IDLE"), told("WORD_RECORDS")), (counts.idle, counts.records));
        assert_eq!((told("WORD_RUN_REQUESTS"), told("WORD_RUN_DEPARTURES")), (traffic.requests, traffic.departures));
    }

    let mut result = [0xEE; 80];
    raw::ring_stopped(&ring(), &mut result);
    assert_eq!(word(&result, numbers.of("WORD_STOPPED")), 1);
    raw::ring_stopped(&after_first(1), &mut result);
    assert_eq!(word(&result, numbers.of("WORD_STOPPED")), 0);
    raw::ring_write(2, &Event::get(1).to_bytes(), &mut [0; 600], &mut result);
    assert_eq!(word(&result, numbers.of("WORD_FILLED")), 512);
    raw::ring_load(2, 1, 64, &mut [0; 1100], &mut result);
    assert_eq!(word(&result, numbers.of("WORD_FILLED")), 1024);
}

/// An image in which every word of a survey has another number, and the same with nothing set in it.
fn surveys(numbers: &Numbers) {
    let told = |image: &[u8]| {
        let mut result = [0xEE; 80];
        assert_eq!(raw::ring_survey(image, &mut result), numbers.of("DONE") as u64);
        let names = ["WORD_VERDICT", "WORD_VERDICT_PLACE", "WORD_FLAGS", "WORD_MARKED_FULL", "WORD_MARKED_EMPTY"];
        names.map(|name| word(&result, numbers.of(name)))
    };
    let mut image = fresh(64, 0).expect("it is a ring");
    assert_eq!(told(&image), [0, 0, 1, 0, 0]);
    for process in [1, 63] {
        image[numbers.at(process, "PROCESS_FLAGS")] = (numbers.of("HAVE") | numbers.of("ARRIVING")) as u8;
    }
    image[numbers.at(63, "PROCESS_REQUESTS")] = numbers.of("MARKED_FULL") as u8;
    image[numbers.at(5, "PROCESS_REQUESTS")] = numbers.of("MARKED_EMPTY") as u8;
    assert_eq!(told(&image), [numbers.of("REFUSED_UNSOUND") as u64, 0, 5, 1 << 63, 1 << 5]);
    assert_eq!(numbers.of("WORD_VERDICT_PLACE"), numbers.of("WORD_VERDICT") + 1);
}
