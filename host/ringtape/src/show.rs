//! From an input of ringrun to a readable text.

use vengloaz::{Event, Refusal};

/// The events of a line.
const A_LINE: usize = 10;

/// The text of an input. All of it is comments if ringrun refuses the input: the refusal, then what
/// can still be read.
pub fn show(input: &[u8]) -> String {
    match refusal(input) {
        None => accepted(input),
        Some(refusal) => {
            let lines = std::iter::once(refusal).chain(sizes(input)).chain(blocks(input));
            lines.map(|line| format!("# {line}\n")).collect()
        }
    }
}

/// N and home, then the events of all blocks. N is there, or the input would be refused; the home may not be.
fn accepted(input: &[u8]) -> String {
    let words: Vec<String> = tape(input).chunks(512).flat_map(|block| used(block).map(word)).collect();
    let mut text = match input.get(1) {
        Some(home) => format!("{} {home}\n", input[0]),
        None => format!("{} 0 # {}\n", input[0], missing("home")),
    };
    for line in words.chunks(A_LINE) {
        text += &line.join(" ");
        text += "\n";
    }
    text
}

/// What ringrun says of an input that it refuses, and what that means.
fn refusal(input: &[u8]) -> Option<String> {
    let report = String::from_utf8(plain::report(input)).ok()?;
    let (number, place) = report.strip_prefix("refused ")?.trim_end().split_once(" at ")?;
    let refusal = Refusal::from_number(number.parse().ok()?, place.parse().ok()?)?;
    Some(refusal.to_string())
}

/// N and home of an input that may lack them.
fn sizes(input: &[u8]) -> Vec<String> {
    let said = |name: &str, byte: Option<&u8>| match byte {
        Some(byte) => format!("{name} {byte}"),
        None => missing(name),
    };
    vec![said("N", input.first()), said("home", input.get(1))]
}

/// What is said of N or home where it is missing.
fn missing(name: &str) -> String {
    format!("no {name}: it reads as 0")
}

/// The bytes behind N and home.
fn tape(input: &[u8]) -> &[u8] {
    input.get(2..).unwrap_or_default()
}

/// Every block, whole or not: its header, then the slots that are used or not zero.
fn blocks(input: &[u8]) -> Vec<String> {
    tape(input)
        .chunks(512)
        .enumerate()
        .flat_map(|(at, block)| [vec![header(at, block)], slots(block)].concat())
        .collect()
}

fn header(at: usize, block: &[u8]) -> String {
    let length = block.len();
    if length < 8 {
        return format!("block {at}: {length} of 512 bytes: {}", hex(block));
    }
    let check = if length < 512 { format!("{length} of 512 bytes") } else { check(block) };
    format!("block {at}: number {}, count {}, {check}", half(block, 0), half(block, 2))
}

fn check(block: &[u8]) -> String {
    let mut right = block.to_vec();
    guide::seal(&mut right);
    let [(a, b), (right_a, right_b)] = [block, &right].map(|block| (half(block, 4), half(block, 6)));
    match (a, b) == (right_a, right_b) {
        true => "check right".to_string(),
        false => format!("check a = {a}, b = {b} where a = {right_a}, b = {right_b} is right"),
    }
}

/// The used slots as events, and each unused one that isn't zero.
fn slots(block: &[u8]) -> Vec<String> {
    let events: Vec<String> = used(block).map(word).collect();
    let unused = all_slots(block).enumerate().skip(events.len()).filter(|(_, slot)| *slot != [0; 8]);
    let unused = unused.map(|(at, slot)| format!("unused slot {at}: {}", hex(&slot)));
    events.chunks(A_LINE).map(|line| line.join(" ")).chain(unused).collect()
}

/// The whole slots of a block, and those that its count says are used.
fn all_slots(block: &[u8]) -> impl Iterator<Item = [u8; 8]> + '_ {
    let (slots, _) = block.get(8..).unwrap_or_default().as_chunks::<8>();
    slots.iter().copied()
}

fn used(block: &[u8]) -> impl Iterator<Item = [u8; 8]> + '_ {
    let count = if block.len() < 8 { 0 } else { half(block, 2) };
    all_slots(block).take(count.into())
}

/// A slot as an event, or as its bytes where that would leave some of them out.
fn word(slot: [u8; 8]) -> String {
    match Event::from_bytes(slot) {
        Some(event) => event.to_string(),
        None => format!("[{}]", hex(&slot)),
    }
}

/// A word of 16 bits.
fn half(block: &[u8], at: usize) -> u16 {
    u16::from_le_bytes([block[at], block[at + 1]])
}

/// Bytes in hexadecimal, parted by blanks.
fn hex(bytes: &[u8]) -> String {
    bytes.iter().map(|byte| format!("{byte:02x}")).collect::<Vec<String>>().join(" ")
}
