//! The calls to make: every N and home, lists and tapes of many lengths, every refusal by every cause.

use crate::case::{Call, Case};
use crate::loads;
use crate::tally::Tally;
use crate::{Watch, Work};
use compare::calls::Calls;
use compare::compare::Answer;
use compare::damage::{any_event, event_causes, tape_causes};
use compare::tape::{Event, Tape, BLOCK, MOST_BLOCKS, MOST_EVENTS, SLOTS};
use compare::watch::Found;
use guide::Random;

/// Does all the work for a seed: what was exercised, and the first find, if there is one.
pub fn work(sides: [Calls; 2], seed: u64) -> (Tally, Option<Found<Case>>) {
    let mut watch = Watch::new(sides);
    let found = all(&mut watch, &mut Random::new(seed)).err();
    (watch.tally, found.map(|found| *found))
}

/// Makes a call that must not be refused, that fills so many bytes and keeps those behind them; gives the output.
pub fn filled(watch: &mut Watch, case: &Case, filled: usize) -> Work<Vec<u8>> {
    let answer = told(watch, case, filled)?;
    if answer.output[filled..] != answer.lent[filled..] {
        return Err(Found::new(case, vec!["both change bytes behind those filled".to_string()]));
    }
    Ok(answer.output)
}

/// Makes a call that must not be refused and that tells this number. A fresh ring tells 0.
fn told(watch: &mut Watch, case: &Case, number: usize) -> Work<Answer> {
    let answer = watch.accepted(case)?;
    match answer.word(0) {
        Some(word) if word == number as u64 => Ok(answer),
        word => Err(Found::new(case, vec![format!("both tell {word:?}, {number} is due")])),
    }
}

fn all(watch: &mut Watch, random: &mut Random) -> Work<()> {
    for n in 2..=64 {
        fresh(watch, n, random)?;
        round_trips(watch, n, random)?;
        wrong_lists(watch, n, random)?;
        wrong_tapes(watch, n, random)?;
        short_outputs(watch, n, random)?;
        loads::all(watch, n, random)?;
    }
    wrong_sizes(watch, random)?;
    longest(watch, random)?;
    loads::longest(watch, random)
}

/// Fresh rings of every home, with buffers of every length.
fn fresh(watch: &mut Watch, n: usize, random: &mut Random) -> Work<()> {
    let case = |home: u64, output: usize, result: usize| Case { n: n as u64, call: Call::Fresh(home), output, result };
    let length = 16 + 8 * n;
    for home in 0..n {
        let image = told(watch, &case(home as u64, length + random.index(3), 80), 0)?.output;
        let due = (0..length).all(|k| image[k] == if k == 0 { n as u8 } else { u8::from(k == 17 + 8 * home) });
        assert!(due, "other bytes than N and the flag of its home are set: {image:?}");
    }
    let n = n as u64;
    for home in [n, n + 1, 64 + n, 256, 256 + n - 1, 1 << 32, (1 << 32) + n - 1, u64::MAX] {
        watch.refused(&case(home, length, 80), 2, 0, "home not below N")?;
        watch.refused(&case(home, 0, 0), 2, 0, "home not below N, no output")?;
    }
    for output in 0..length {
        watch.refused(&case(random.below(n), output, 80), 3, 0, "image buffer short")?;
    }
    for result in 0..=100 {
        let case = case(random.below(n), length, result);
        match result {
            0..80 => watch.refused(&case, 10, 0, "result under 80 bytes")?,
            _ => told(watch, &case, 0).map(|_| ())?,
        }
    }
    Ok(())
}

/// Lists of 0 to 130 events and some more: written, read back, and written again.
fn round_trips(watch: &mut Watch, n: usize, random: &mut Random) -> Work<()> {
    for many in (0..=130).chain([SLOTS * 20, SLOTS * 20 + 1]) {
        let list = any_list(random, n, many);
        round_trip(watch, n, &list, random)?;
    }
    Ok(())
}

pub fn round_trip(watch: &mut Watch, n: usize, list: &[u8], random: &mut Random) -> Work<()> {
    let n = n as u64;
    let bytes = BLOCK * (list.len() / 8).div_ceil(SLOTS);
    let room = bytes + random.pick(&[0, 1, 511, 512]);
    let written = Case { n, call: Call::Write(list.to_vec()), output: room, result: 80 };
    let tape = filled(watch, &written, bytes)?;
    let known = Tape::of(list.as_chunks().0);
    assert!(known.bytes() == tape[..bytes], "the tape written is the tape of the list");

    let room = list.len() + random.pick(&[0, 1, 7, 8]);
    let read = Case { n, call: Call::Read(known), output: room, result: 80 };
    let back = filled(watch, &read, list.len())?;
    assert!(list == &back[..list.len()], "a tape reads back as the events written");
    Ok(())
}

/// Lists that are refused 6 or 5.
fn wrong_lists(watch: &mut Watch, n: usize, random: &mut Random) -> Work<()> {
    let case = |list: Vec<u8>| Case { n: n as u64, output: BLOCK * 4, call: Call::Write(list), result: 80 };
    for further in 1..8 {
        let events = random.within(0, 70);
        let list = any_list(random, n, events + 1);
        watch.refused(&case(list[..8 * events + further].to_vec()), 6, 0, "ragged")?;
        let wrong = vec![0xFF; 8 * events + further];
        watch.refused(&case(wrong), 6, 0, "ragged, with wrong events")?;
    }
    for cause in event_causes() {
        for place in ["first", "middle", "last"] {
            let many = random.within(1, 140);
            let mut list = any_list(random, n, many);
            let at = match place {
                "first" => 0,
                "last" => many - 1,
                _ => random.index(many),
            };
            list[8 * at..8 * at + 8].copy_from_slice(&cause.event(random, n));
            watch.refused(&case(list), 5, at as u64, &format!("{}, {place} event", cause.name))?;
        }
    }
    Ok(())
}

/// Tapes that are refused 5 to 9.
fn wrong_tapes(watch: &mut Watch, n: usize, random: &mut Random) -> Work<()> {
    for cause in tape_causes() {
        let (tape, place) = cause.tape(random, n);
        let case = Case { n: n as u64, call: Call::Read(tape), output: 8 * SLOTS * 5, result: 80 };
        watch.refused(&case, cause.number, place, &cause.name)?;
    }
    Ok(())
}

/// Outputs and result slices that are refused 10.
fn short_outputs(watch: &mut Watch, n: usize, random: &mut Random) -> Work<()> {
    let many = random.within(SLOTS + 1, 140);
    let list = any_list(random, n, many);
    let tape = Tape::of(list.as_chunks().0);
    let tape_bytes = BLOCK * tape.blocks.len();
    let calls = [
        (Call::Write(list), tape_bytes, BLOCK),
        (Call::Load(1 + random.below(loads::MOST_SEED), many as u64), tape_bytes, BLOCK),
        (Call::Read(tape), 8 * many, 8),
    ];
    for (call, bytes, unit) in calls {
        let case = |output: usize, result: usize| Case { n: n as u64, call: call.clone(), output, result };
        watch.refused(&case(bytes - 1, 80), 10, 0, "a byte short")?;
        watch.refused(&case(bytes - unit, 80), 10, 0, "a block or event short")?;
        watch.refused(&case(0, 80), 10, 0, "no bytes")?;
        for result in 0..=100 {
            match result {
                0..80 => watch.refused(&case(bytes, result), 10, 0, "result under 80 bytes")?,
                _ => filled(watch, &case(bytes, result), bytes).map(|_| ())?,
            }
        }
    }
    Ok(())
}

/// N outside 2 to 64, with everything else wrong as well or nothing.
fn wrong_sizes(watch: &mut Watch, random: &mut Random) -> Work<()> {
    for n in [0, 1, 65, 66, 128, 255, 256, 258, 256 + 64, 65_538, (1 << 32) + 2, 1 << 63, u64::MAX] {
        for wrong in [false, true] {
            let (output, result) = if wrong { (0, 0) } else { (4_096, 80) };
            let list = if wrong { vec![0xFF] } else { any_list(random, 2, 70) };
            let tape = if wrong { Tape::with_bytes(&list) } else { Tape::of(list.as_chunks().0) };
            let home = if wrong { u64::MAX } else { 0 };
            let load = if wrong { Call::Load(0, u64::MAX) } else { Call::Load(1, 70) };
            for call in [Call::Fresh(home), Call::Write(list.clone()), Call::Read(tape), load] {
                watch.refused(&Case { n, call, output, result }, 1, 0, "N outside 2 to 64")?;
            }
        }
    }
    Ok(())
}

/// The longest list and tape, and those that are too long.
fn longest(watch: &mut Watch, random: &mut Random) -> Work<()> {
    let list = any_list(random, 64, MOST_EVENTS + 1);
    let fits = &list[..list.len() - 8];
    round_trip(watch, 64, fits, random)?;
    let mut tape = Tape::of(fits.as_chunks().0);
    tape.blocks.push(tape.blocks[0].clone());
    let room = BLOCK * (MOST_BLOCKS + 1);
    watch.refused(&Case { n: 64, call: Call::Write(list), output: room, result: 80 }, 6, 0, "too long")?;
    watch.refused(&Case { n: 64, call: Call::Read(tape), output: room, result: 80 }, 6, 0, "too long")
}

/// The bytes of so many events for N.
fn any_list(random: &mut Random, n: usize, many: usize) -> Vec<u8> {
    let events: Vec<Event> = (0..many).map(|_| any_event(random, n)).collect();
    events.concat()
}
