//! Lists, tapes and loads whose answers are written down here, by calculations of their own from documents 01 and 02:
//! the checks of tapes, and what is answered to changed lists and tapes and to a load's numbers, two faults at once
//! among them.
//!
//! The list of so many events for N is always the same: event k, counted from 0, is at process k mod N and has code
//! k mod 8, and with code 0 the message 16,909,060 x (k + 1).

use crate::case::{Call, Case};
use compare::calls::{PLAIN, PROVED};
use compare::compare::{compare, Answer};
use compare::tape::{event, Block, Event, Tape, BLOCK};
use guide::seal;

/// N, a number of events, and the checks of the blocks of that list's tape.
const CHECKS: [(u64, usize, &[u32]); 19] = [
    (2, 1, &[0xEDDA0407]),
    (2, 62, &[0x7F0C78D1]),
    (2, 63, &[0x98097ED2]),
    (2, 64, &[0x98097ED2, 0xE6FD0703]),
    (2, 126, &[0x98097ED2, 0xCBEB8BDC]),
    (2, 127, &[0x98097ED2, 0xCBEB8BDC, 0xEAFE0603]),
    (3, 1, &[0xEDDA0407]),
    (3, 62, &[0x8E5C78EF]),
    (3, 63, &[0xA7617EF2]),
    (3, 64, &[0xA7617EF2, 0xE6010702]),
    (3, 126, &[0xA7617EF2, 0xDAC38BFB]),
    (3, 127, &[0xA7617EF2, 0xDAC38BFB, 0xEAFE0603]),
    (64, 1, &[0xEDDA0407]),
    (64, 62, &[0xF9968015]),
    (64, 63, &[0x138C8654]),
    (64, 64, &[0x138C8654, 0x24060741]),
    (64, 126, &[0x138C8654, 0x666E935E]),
    (64, 127, &[0x138C8654, 0x666E935E, 0x28070641]),
    (64, 189, &[0x138C8654, 0x666E935E, 0x580FA068]),
];

/// N, seed, count, and the checks of the blocks of that load's tape.
const LOADS: [(u64, u64, u64, &[u32]); 9] = [
    (2, 1, 1, &[0xFDF90102]),
    (2, 2_147_483_646, 64, &[0x9A58D38F, 0xE6FD0703]),
    (3, 2, 62, &[0x996135D5]),
    (4, 1, 8, &[0x79B499E3]),
    (4, 1, 63, &[0xB8429A5E]),
    (5, 2_147_483_645, 125, &[0x256B7975, 0xA7308C15]),
    (37, 16_807, 126, &[0xE445ACBF, 0x1804E35A]),
    (64, 123_456_789, 200, &[0xEFE12D6F, 0xF555C97B, 0x459593AF, 0xD05E7366]),
    (64, 1, 127, &[0x0CA6A0FA, 0xEECD775B, 0x223D0433]),
];

/// Lines `load N SEED COUNT ROOM = ANSWER`: a load with an output of ROOM bytes.
const LOAD_ANSWERS: &str = "\
# the least and the greatest seed
load 2 1 1 512 = filled 512
load 64 2147483646 1 512 = filled 512
load 4 0 1 512 = refused 11 at 0
load 4 2147483647 1 512 = refused 11 at 0
# numbers that would do if they were cut
load 258 1 1 512 = refused 1 at 0
load 4294967300 1 1 512 = refused 1 at 0
load 4 4294967297 1 512 = refused 11 at 0
load 4 1 4294967297 512 = refused 6 at 0
load 4 1 18446744073709551615 512 = refused 6 at 0
# outputs that fit, and some a byte short
load 4 1 63 512 = filled 512
load 4 1 63 511 = refused 10 at 0
load 4 1 64 1024 = filled 1024
load 4 1 64 1023 = refused 10 at 0
load 4 1 126 1024 = filled 1024
load 4 1 127 1024 = refused 10 at 0
load 4 1 4128768 33554431 = refused 10 at 0
load 4 1 4128769 33554432 = refused 6 at 0
# first N, then the seed, then the count, then the output
load 1 0 1 512 = refused 1 at 0
load 65 1 4128769 512 = refused 1 at 0
load 1 1 1 0 = refused 1 at 0
load 4 0 4128769 512 = refused 11 at 0
load 4 2147483647 1 0 = refused 11 at 0
load 4 1 4128769 0 = refused 6 at 0
load 65 0 4128769 0 = refused 1 at 0
# no events
load 4 1 0 512 = filled 0
load 64 2147483646 0 0 = filled 0
load 65 1 0 0 = refused 1 at 0
load 4 0 0 0 = refused 11 at 0";

/// Lines `CALL N EVENTS LENGTH ROOM CHANGES = ANSWER`: the call for N, with an output of ROOM bytes, on the first
/// LENGTH bytes of the list of so many events for 64 processes, or of its tape, changed. `AT:VALUE` sets a byte, and
/// `seal:B` gives block B its right check. After the list or the tape come bytes of 170.
const ANSWERS: &str = "\
# a tape cut off after a whole block, and a list after a whole event
read 64 64 512 504 = filled 504
write 64 64 504 512 = filled 512
# no bytes, and blocks with count 0: alone with its event, alone with none, behind a full one, and before another
read 64 1 0 504 = filled 0
read 2 1 0 0 = filled 0
write 64 1 0 512 = filled 0
write 2 1 0 0 = filled 0
read 1 1 0 0 = refused 1 at 0
write 65 1 0 0 = refused 1 at 0
read 64 1 512 8 2:0 seal:0 = refused 8 at 0
read 64 1 512 8 2:0 12:0 13:0 14:0 15:0 4:0 5:0 6:0 7:0 = refused 8 at 0
read 64 64 1024 512 514:0 seal:1 = refused 8 at 1
read 64 64 1024 512 2:0 seal:0 = refused 8 at 0
# both halves of the right check are 0
read 64 1 512 8 12:251 13:255 14:3 15:0 seal:0 = filled 8
read 64 1 512 8 12:251 13:255 14:3 15:0 4:0 5:0 6:0 7:0 = filled 8
read 64 1 512 8 12:251 13:255 14:3 15:0 seal:0 4:255 5:255 = refused 7 at 0
read 64 1 512 8 12:251 13:255 14:3 15:0 seal:0 6:255 7:255 = refused 7 at 0
read 64 1 512 8 12:251 13:255 14:3 15:0 seal:0 4:1 = refused 7 at 0
read 64 1 512 8 12:251 13:255 14:3 15:0 seal:0 6:1 = refused 7 at 0
# a block that is not the last after all
read 64 1 1024 512 = refused 8 at 0
read 64 62 1024 512 512:1 513:0 514:1 515:0 seal:1 = refused 8 at 0
# a greater count in the last block takes zeros for events, and a smaller one leaves events in unused slots
read 64 1 512 16 2:2 seal:0 = filled 16
read 64 1 512 504 2:63 seal:0 = filled 504
read 64 64 1024 1008 514:63 seal:1 = filled 1008
read 64 64 1024 1007 514:63 seal:1 = refused 10 at 0
read 64 2 512 16 2:1 seal:0 = refused 9 at 0
read 64 126 1024 1008 514:62 seal:1 = refused 9 at 1
read 64 63 512 504 2:62 seal:0 = refused 9 at 0
# a process of a larger ring
read 2 64 1024 512 = refused 5 at 2
read 3 64 1024 512 = refused 5 at 3
read 62 64 1024 512 = refused 5 at 62
read 63 64 1024 512 = refused 5 at 63
write 2 64 512 1024 = refused 5 at 2
write 3 64 512 1024 = refused 5 at 3
write 62 64 512 1024 = refused 5 at 62
write 63 64 512 1024 = refused 5 at 63
# events that are just accepted
read 64 1 512 8 8:63 seal:0 = filled 8
read 3 3 512 24 8:2 seal:0 = filled 24
read 64 1 512 8 9:7 12:0 13:0 14:0 15:0 seal:0 = filled 8
read 64 1 512 8 12:255 13:255 14:255 15:255 seal:0 = filled 8
read 64 64 1024 512 521:0 527:255 seal:1 = filled 512
write 64 1 8 512 0:63 = filled 512
write 64 1 8 512 1:7 4:0 5:0 6:0 7:0 = filled 512
write 64 1 8 512 4:255 5:255 6:255 7:255 = filled 512
# a word changed from 0 to 65,535, which the check does not see
read 64 1 512 8 16:255 17:255 = refused 9 at 0
read 64 1 512 8 510:255 511:255 = refused 9 at 0
read 64 64 1024 512 528:255 529:255 = refused 9 at 1
read 64 1 512 8 10:255 11:255 = refused 5 at 0
read 64 2 512 16 20:255 21:255 = refused 5 at 1
read 64 1 512 8 12:0 13:0 seal:0 12:255 13:255 = filled 8
# two faults in one block
read 64 1 512 8 0:2 = refused 7 at 0
read 64 1 512 8 9:8 = refused 7 at 0
read 64 1 512 8 511:1 = refused 7 at 0
read 64 1 512 8 0:1 9:8 seal:0 = refused 8 at 0
read 64 1 512 8 0:1 511:1 seal:0 = refused 8 at 0
read 64 1 512 8 2:0 9:8 511:1 seal:0 = refused 8 at 0
read 64 1 512 8 9:8 511:1 seal:0 = refused 5 at 0
read 64 1 512 8 0:1 9:8 511:1 = refused 7 at 0
read 64 2 512 16 9:8 17:8 seal:0 = refused 5 at 0
read 64 64 1024 512 512:0 521:8 1023:1 seal:1 = refused 8 at 1
read 64 64 1024 512 521:8 1023:1 seal:1 = refused 5 at 63
# the first of two blocks with a fault, whatever they are
read 64 64 1024 512 4:0 516:0 = refused 7 at 0
read 64 64 1024 512 0:1 seal:0 516:0 = refused 8 at 0
read 64 64 1024 512 9:8 seal:0 516:0 = refused 5 at 0
read 64 64 1024 512 505:8 seal:0 512:0 seal:1 = refused 5 at 62
read 64 127 1536 1016 512:0 seal:1 1028:0 = refused 8 at 1
read 64 127 1536 1016 1017:8 seal:1 1535:1 seal:2 = refused 5 at 125
read 64 127 1536 1016 9:8 seal:0 1033:8 seal:2 = refused 5 at 0
# two faults in a list
write 64 2 16 512 1:8 9:8 = refused 5 at 0
write 64 2 16 512 9:8 1:8 = refused 5 at 0
write 64 64 512 1024 9:8 505:8 = refused 5 at 1
# first N, then the length, then events and blocks, then the output
read 1 1 511 8 = refused 1 at 0
read 1 1 512 8 0:1 = refused 1 at 0
read 1 1 512 7 = refused 1 at 0
read 65 1 511 0 0:1 = refused 1 at 0
read 64 1 511 8 0:1 = refused 6 at 0
read 64 1 511 7 = refused 6 at 0
read 64 64 1023 0 0:1 = refused 6 at 0
read 64 1 512 7 0:1 = refused 7 at 0
read 64 1 512 7 0:1 seal:0 = refused 8 at 0
read 64 1 512 7 9:8 seal:0 = refused 5 at 0
read 64 1 512 7 511:1 seal:0 = refused 9 at 0
read 64 1 512 0 4:0 = refused 7 at 0
write 1 1 7 512 = refused 1 at 0
write 1 1 8 512 1:8 = refused 1 at 0
write 1 1 8 511 = refused 1 at 0
write 65 1 7 0 1:8 = refused 1 at 0
write 64 1 7 512 1:8 = refused 6 at 0
write 64 2 15 511 1:8 = refused 6 at 0
write 64 1 7 511 = refused 6 at 0
write 64 1 8 511 1:8 = refused 5 at 0
write 64 64 512 0 505:8 = refused 5 at 63";

/// Every list of the checks is written as a tape that has them, is read back, and is written again as the same bytes.
#[test]
fn known_tapes_have_their_checks() {
    for (n, events, checks) in CHECKS {
        let list = list(n, events);
        let output = |call: Call| -> Vec<u8> {
            let case = Case { n, call, output: 4 * BLOCK, result: 80 };
            let answer = both(&case);
            kept(&answer, "a tape of the checks");
            answer.output[..filled(&answer)].to_vec()
        };
        let tape = output(Call::Write(list.clone()));
        let written: Vec<u32> = Tape::with_bytes(&tape).blocks.iter().map(Block::check).collect();
        assert_eq!((written.as_slice(), tape.len()), (checks, BLOCK * checks.len()), "N {n}, {events} events");
        let back = output(Call::Read(Tape::with_bytes(&tape)));
        assert!(back == list, "N {n}, {events} events: another list comes back");
        assert!(output(Call::Write(back)) == tape, "N {n}, {events} events: another tape comes back");
    }
}

/// Every line of the answers is what is answered, and no other byte of the output is changed than those filled.
#[test]
fn known_answers_are_given() {
    let lines = ANSWERS.lines().chain(LOAD_ANSWERS.lines());
    for line in lines.filter(|line| !line.starts_with('#')) {
        let (call, due) = line.split_once(" = ").expect("a line has an answer");
        let answer = both(&case(call));
        let word = answer.word(0).expect("the result slice has 80 bytes");
        let shown = match answer.number {
            0 => format!("filled {word}"),
            number => format!("refused {number} at {word}"),
        };
        assert_eq!(shown, due, "{line}");
        kept(&answer, line);
    }
}

/// Every load has the checks, reads back as events, and these are written as the same bytes.
#[test]
fn known_loads_have_their_checks() {
    for (n, seed, count, checks) in LOADS {
        let made = |call: Call| -> Vec<u8> {
            let answer = both(&Case { n, call, output: 4 * BLOCK, result: 80 });
            kept(&answer, "a load of the checks");
            answer.output[..filled(&answer)].to_vec()
        };
        let tape = made(Call::Load(seed, count));
        let written: Vec<u32> = Tape::with_bytes(&tape).blocks.iter().map(Block::check).collect();
        assert_eq!(written, checks, "N {n}, seed {seed}, {count} events");
        let events = made(Call::Read(Tape::with_bytes(&tape)));
        assert_eq!(events.len(), 8 * count as usize, "N {n}, seed {seed}, {count} events");
        assert!(made(Call::Write(events)) == tape, "N {n}, seed {seed}, {count} events: another tape comes back");
    }
}

/// The 10,000th number drawn from 1 is the published one. It is the first of event 3,333's three, and its rests by 2 to
/// 64 leave no other number.
#[test]
fn the_10_000th_number_is_the_published_one() {
    for n in 2..=64 {
        let answer = both(&Case { n, call: Call::Load(1, 3_334), output: 53 * BLOCK, result: 80 });
        let events = Tape::with_bytes(&answer.output).events();
        assert_eq!(u64::from(events[3_333][0]), 1_043_618_065 % n, "N {n}");
    }
}

/// The answer that both sides give.
fn both(case: &Case) -> Answer {
    compare(case, &[PROVED, PLAIN]).unwrap_or_else(|lines| panic!("they differ: {case}{}", lines.join("\n")))
}

/// The bytes filled: none after a refusal.
fn filled(answer: &Answer) -> usize {
    match (answer.number, answer.word(0)) {
        (0, Some(filled)) => filled as usize,
        _ => 0,
    }
}

/// The output's bytes after those filled must be as they were lent.
fn kept(answer: &Answer, line: &str) {
    let filled = filled(answer);
    assert!(answer.output[filled..] == answer.lent[filled..], "{line}: bytes after those filled are changed");
}

/// The call of a line.
fn case(call: &str) -> Case {
    let words: Vec<&str> = call.split(' ').collect();
    if words[0] == "load" {
        let [n, seed, count, output] = [1, 2, 3, 4].map(|k| words[k].parse::<u64>().expect("it is a number"));
        return Case { n, call: Call::Load(seed, count), output: output as usize, result: 80 };
    }
    let [n, events, length, output] = [1, 2, 3, 4].map(|k| words[k].parse::<usize>().expect("it is a number"));
    let reads = words[0] == "read";
    let list = list(64, events);
    let mut input = if reads { Tape::of(list.as_chunks().0).bytes() } else { list };
    input.resize(4 * BLOCK, 170);
    words[5..].iter().for_each(|word| change(&mut input, word));
    input.truncate(length);
    let call = if reads { Call::Read(Tape::with_bytes(&input)) } else { Call::Write(input) };
    Case { n: n as u64, call, output, result: 80 }
}

/// The list of so many events for N.
fn list(n: u64, events: usize) -> Vec<u8> {
    let event = |k: usize| -> Event {
        let message = if k.is_multiple_of(8) { 16_909_060 * (k as u32 + 1) } else { 0 };
        event(k % n as usize, (k % 8) as u8, message)
    };
    (0..events).flat_map(event).collect()
}

/// A byte set, or a block given its right check.
fn change(bytes: &mut [u8], word: &str) {
    let (what, number) = word.split_once(':').expect("a change has a colon");
    let number: usize = number.parse().expect("it is a number");
    match what {
        "seal" => seal(&mut bytes[BLOCK * number..BLOCK * number + BLOCK]),
        at => bytes[at.parse::<usize>().expect("it is a place")] = number as u8,
    }
}
