//! Events and tapes that refusals 5 to 9 turn down, by every cause and at every kind of place.

use crate::tape::{event, Block, Event, Seal, Tape, SLOTS};
use guide::Random;

/// Makes the bytes of an event for N.
type MakeEvent = Box<dyn Fn(&mut Random, usize) -> Vec<u8>>;

/// A way to make an event that is refused.
pub struct EventCause {
    /// What is wrong.
    pub name: String,
    make: MakeEvent,
}

impl EventCause {
    /// Such an event for N.
    pub fn event(&self, random: &mut Random, n: usize) -> Vec<u8> {
        (self.make)(random, n)
    }
}

/// Any event for N, possible or not.
pub fn any_event(random: &mut Random, n: usize) -> Event {
    let code = random.index(8) as u8;
    let message = if code == 0 { random.words() } else { 0 };
    event(random.index(n), code, message)
}

/// The causes in events of other lengths than 8 bytes.
pub fn length_causes() -> Vec<EventCause> {
    let mut causes = Vec::new();
    for length in (0..=16).filter(|length| *length != 8) {
        add(&mut causes, format!("event of {length} bytes"), move |random, n| {
            let mut bytes = any_event(random, n).to_vec();
            bytes.extend_from_slice(&any_event(random, n));
            bytes.truncate(length);
            bytes
        });
    }
    causes
}

/// A change to an event for N.
type Change = fn(&mut Random, usize, &mut Event);

/// The causes in events of 8 bytes, which may stand on a tape too.
pub fn event_causes() -> Vec<EventCause> {
    let mut causes = Vec::new();
    let changes: [(&str, Change); 8] = [
        ("process N", |_, n, event| event[0] = n as u8),
        ("process above N", |random, n, event| event[0] = random.within(n, 255) as u8),
        ("process 255", |_, _, event| event[0] = 255),
        ("code 8", |_, _, event| *event = self::event(event[0].into(), 8, 0)),
        ("code above 7", |random, _, event| *event = self::event(event[0].into(), random.within(8, 255) as u8, 0)),
        ("code 255", |_, _, event| *event = self::event(event[0].into(), 255, 0)),
        ("byte 2", |random, _, event| event[2] = random.set_byte()),
        ("byte 3", |random, _, event| event[3] = random.set_byte()),
    ];
    for (name, change) in changes {
        add(&mut causes, name.to_string(), move |random, n| {
            let mut event = any_event(random, n);
            change(random, n, &mut event);
            event.to_vec()
        });
    }
    for code in 1..8 {
        add(&mut causes, format!("message with code {code}"), move |random, n| {
            let mut event = event(random.index(n), code, 0);
            event[random.within(4, 7)] = random.set_byte();
            event.to_vec()
        });
    }
    causes
}

fn add(causes: &mut Vec<EventCause>, name: String, make: impl Fn(&mut Random, usize) -> Vec<u8> + 'static) {
    causes.push(EventCause { name, make: Box::new(make) });
}

/// Makes a tape for N, and the place of its refusal.
type MakeTape = Box<dyn Fn(&mut Random, usize) -> (Tape, usize)>;

/// A way to make a tape that is refused.
pub struct TapeCause {
    /// What is wrong.
    pub name: String,
    /// The refusal, 5 to 9.
    pub number: u64,
    make: MakeTape,
}

impl TapeCause {
    /// Such a tape for N, and the place of its refusal.
    pub fn tape(&self, random: &mut Random, n: usize) -> (Tape, u64) {
        let (tape, place) = (self.make)(random, n);
        (tape, place as u64)
    }
}

/// All of them but for the tape that is too long.
pub fn tape_causes() -> Vec<TapeCause> {
    let mut causes = Vec::new();
    lengths(&mut causes);
    for at in ["only", "first", "middle", "last"] {
        checks(&mut causes, at);
        numbers(&mut causes, at);
        counts(&mut causes, at);
        events(&mut causes, at);
    }
    unused(&mut causes);
    words(&mut causes);
    causes
}

/// Any tape for N of so many blocks, the last with so many events.
pub fn any_tape(random: &mut Random, n: usize, blocks: usize, last: usize) -> Tape {
    let events: Vec<Event> = (0..SLOTS * (blocks - 1) + last).map(|_| any_event(random, n)).collect();
    Tape::of(&events)
}

/// A tape and its only, first, some middle or last block.
fn tape_at(random: &mut Random, n: usize, at: &str) -> (Tape, usize) {
    let blocks = if at == "only" { 1 } else { random.within(3, 5) };
    let last = random.within(1, SLOTS);
    let block = match at {
        "middle" => random.within(1, blocks - 2),
        "last" => blocks - 1,
        _ => 0,
    };
    (any_tape(random, n, blocks, last), block)
}

/// Adds a cause that changes one block of a tape; the block is the refusal's place.
fn in_block(
    causes: &mut Vec<TapeCause>,
    number: u64,
    (name, at): (&str, &'static str),
    change: impl Fn(&mut Random, &mut Block) + 'static,
) {
    let make = move |random: &mut Random, n: usize| {
        let (mut tape, block) = tape_at(random, n, at);
        change(random, &mut tape.blocks[block]);
        (tape, block)
    };
    causes.push(TapeCause { name: format!("{name}, {at} block"), number, make: Box::new(make) });
}

/// The blocks of a ragged tape, and the bytes after them.
type Length = fn(&mut Random) -> (usize, usize);

/// Refusal 6.
fn lengths(causes: &mut Vec<TapeCause>) {
    let lengths: [(&str, Length); 5] = [
        ("1 byte", |_| (0, 1)),
        ("511 bytes", |_| (0, 511)),
        ("a byte too many", |random| (random.within(1, 3), 1)),
        ("a byte too few", |random| (random.within(1, 3), 511)),
        ("ragged", |random| (random.within(0, 3), random.within(1, 511))),
    ];
    for (name, length) in lengths {
        let make = move |random: &mut Random, n: usize| {
            let (blocks, further) = length(random);
            let mut tape = any_tape(random, n, blocks + 1, SLOTS);
            let cut = tape.blocks.pop().expect("a tape has a block");
            tape.tail = cut.bytes()[..further].to_vec();
            (tape, 0)
        };
        causes.push(TapeCause { name: name.to_string(), number: 6, make: Box::new(make) });
    }
}

/// Refusal 7.
fn checks(causes: &mut Vec<TapeCause>, at: &'static str) {
    for (byte, name) in ["check byte 4", "check byte 5", "check byte 6", "check byte 7"].into_iter().enumerate() {
        in_block(causes, 7, (name, at), move |random, block| {
            block.seal = Seal::Off(u32::from(random.set_byte()) << (8 * byte));
        });
    }
    in_block(causes, 7, ("halves of the check exchanged", at), |_, block| {
        let check = block.right_check();
        let halves_differ = check != check.rotate_left(16);
        block.seal = if halves_differ { Seal::Fixed(check.rotate_left(16)) } else { Seal::Off(1) };
    });
    let bytes = [("number byte altered", 0, 1), ("count byte altered", 2, 3), ("slot byte altered", 8, 511)];
    for (name, least, most) in bytes {
        in_block(causes, 7, (name, at), move |random, block| {
            block.fix_check();
            *block.byte(random.within(least, most)) ^= random.set_byte();
        });
    }
    in_block(causes, 7, ("lower half 65,535 for 0", at), |_, block| {
        sum_to_zero(block);
        block.seal = Seal::Fixed(block.right_check() | 0xFFFF);
    });
    in_block(causes, 7, ("upper half 65,535 for 0", at), |_, block| {
        second_sum_to_zero(block);
        block.seal = Seal::Fixed(block.right_check() | 0xFFFF_0000);
    });
}

/// Gives slot 0 an event whose message makes the check's lower half 0.
pub fn sum_to_zero(block: &mut Block) {
    block.set_slot(0, event(0, 0, 0));
    let missing = (65_535 - block.right_check() % 65_536) % 65_535;
    block.set_slot(0, event(0, 0, missing));
    assert_eq!(block.right_check() & 0xFFFF, 0);
}

/// Gives slot 0 an event whose message makes the check's upper half 0: a word counts once more there than the word
/// after it does, so a number in one and its opposite in the next add that number.
pub fn second_sum_to_zero(block: &mut Block) {
    block.set_slot(0, event(0, 0, 0));
    let missing = (65_535 - block.right_check() / 65_536) % 65_535;
    block.set_slot(0, event(0, 0, missing | (65_535 - missing) << 16));
    assert_eq!(block.right_check() >> 16, 0);
}

/// Blocks 0 of one event whose check has a half of 65,535 where 0 is right: what the shrinkers try in the place of
/// larger ones, for such a check can't be kept while events go one by one.
pub fn small_blocks_with_wrong_half() -> [Block; 2] {
    let mut blocks = [Block::new(0, &[[0; 8]]), Block::new(0, &[[0; 8]])];
    sum_to_zero(&mut blocks[0]);
    second_sum_to_zero(&mut blocks[1]);
    blocks[0].seal = Seal::Fixed(blocks[0].right_check() | 0xFFFF);
    blocks[1].seal = Seal::Fixed(blocks[1].right_check() | 0xFFFF_0000);
    blocks
}

/// Refusal 8 by the number.
fn numbers(causes: &mut Vec<TapeCause>, at: &'static str) {
    for (name, off) in [("number one more", 1), ("number one less", 0xFFFF), ("number 256 more", 256)] {
        in_block(causes, 8, (name, at), move |_, block| block.set_number(block.number().wrapping_add(off)));
    }
}

/// Refusal 8 by the count.
fn counts(causes: &mut Vec<TapeCause>, at: &'static str) {
    let wrong = [("count 0", 0), ("count 64", 64), ("count 319", 319), ("count 65,535", 65_535)];
    for (name, count) in wrong {
        in_block(causes, 8, (name, at), move |_, block| block.set_count(count));
    }
    in_block(causes, 8, ("count 0, and no events", at), |_, block| *block = Block::new(block.number(), &[]));
    in_block(causes, 8, ("count 256 more", at), |_, block| block.set_count(block.count() + 256));
    if matches!(at, "first" | "middle") {
        for (name, count) in [("count 62", 62), ("count 1", 1)] {
            in_block(causes, 8, (name, at), move |random, block| {
                block.set_count(count);
                if random.flip() {
                    (usize::from(count)..SLOTS).for_each(|slot| block.set_slot(slot, [0; 8]));
                }
            });
        }
    }
}

/// Refusal 5 in the first, some middle and the last used slot.
fn events(causes: &mut Vec<TapeCause>, at: &'static str) {
    for cause in event_causes() {
        let cause = std::rc::Rc::new(cause);
        for slot in ["first", "middle", "last"] {
            let name = format!("{}, {slot} slot, {at} block", cause.name);
            let cause = cause.clone();
            let make = move |random: &mut Random, n: usize| {
                let (mut tape, block) = tape_at(random, n, at);
                let last = usize::from(tape.blocks[block].count()) - 1;
                let slot = match slot {
                    "first" => 0,
                    "last" => last,
                    _ => random.within(0, last),
                };
                let wrong = cause.event(random, n).try_into().expect("an event for a tape has 8 bytes");
                tape.blocks[block].set_slot(slot, wrong);
                (tape, SLOTS * block + slot)
            };
            causes.push(TapeCause { name, number: 5, make: Box::new(make) });
        }
    }
}

/// Refusal 9.
fn unused(causes: &mut Vec<TapeCause>) {
    for at in ["only", "last"] {
        for slot in ["first", "middle", "last"] {
            let name = format!("{slot} unused slot, {at} block");
            let make = move |random: &mut Random, n: usize| {
                let (mut tape, block, used) = with_unused(random, n, at);
                let slot = match slot {
                    "first" => used,
                    "last" => SLOTS - 1,
                    _ => random.within(used, SLOTS - 1),
                };
                *tape.blocks[block].byte(8 + 8 * slot + random.index(8)) = random.set_byte();
                (tape, block)
            };
            causes.push(TapeCause { name, number: 9, make: Box::new(make) });
        }
    }
}

/// A tape with unused slots in its only or last block: the tape, that block, and its used slots.
fn with_unused(random: &mut Random, n: usize, at: &str) -> (Tape, usize, usize) {
    let blocks = if at == "only" { 1 } else { random.within(2, 4) };
    let used = random.within(1, SLOTS - 1);
    (any_tape(random, n, blocks, used), blocks - 1, used)
}

/// Where a word is in a block with so many used slots.
type WordAt = fn(usize) -> usize;

/// Words of 0 altered to 65,535, which the check doesn't see.
fn words(causes: &mut Vec<TapeCause>) {
    let words: [(&str, u64, WordAt); 4] = [
        ("number 65,535 for 0", 8, |_| 0),
        ("process and code 65,535 for 0", 5, |_| 8),
        ("zeros of an event 65,535", 5, |_| 10),
        ("word of an unused slot 65,535", 9, |used| 8 + 8 * used),
    ];
    for (name, number, at) in words {
        let make = move |random: &mut Random, n: usize| {
            let (mut tape, _, used) = with_unused(random, n, "only");
            let block = &mut tape.blocks[0];
            block.set_slot(0, event(0, 0, random.words()));
            block.fix_check();
            *block.byte(at(used)) = 255;
            *block.byte(at(used) + 1) = 255;
            assert_eq!(block.check(), block.right_check(), "the check must take 65,535 for 0");
            (tape, 0)
        };
        causes.push(TapeCause { name: name.to_string(), number, make: Box::new(make) });
    }
}
