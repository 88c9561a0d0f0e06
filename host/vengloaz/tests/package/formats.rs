//! The worked examples of docs/FORMATS.md, each held against what the proved calls give.

use crate::support::{events, ledger, ring, tape, ENTRY};
use vengloaz::{load, raw, step, Event};

const FORMATS: &str = include_str!("../../../../docs/FORMATS.md");

/// The fenced blocks of one kind, each with the heading that it stands under.
fn blocks(kind: &str) -> Vec<(&'static str, String)> {
    let fence = format!("```{kind}");
    let mut found: Vec<(&'static str, String)> = Vec::new();
    let (mut heading, mut inside) = ("", false);
    for line in FORMATS.lines() {
        if inside && line == "```" {
            inside = false;
        } else if inside {
            let (_, block) = found.last_mut().expect("the block has begun");
            *block += line;
            *block += "\n";
        } else if line == fence {
            inside = true;
            found.push((heading, String::new()));
        } else {
            heading = line.strip_prefix("## ").unwrap_or(heading);
        }
    }
    found
}

/// The bytes that a block shows: hexadecimal, `× COUNT` behind one that comes so often, and comments.
fn bytes(block: &str) -> Vec<u8> {
    let mut bytes = Vec::new();
    for line in block.lines() {
        let mut words = line.split('#').next().unwrap_or_default().split_whitespace();
        while let Some(word) = words.next() {
            if word == "×" {
                let count: usize = words.next().and_then(|count| count.parse().ok()).expect("a number follows ×");
                let byte = *bytes.last().expect("a byte comes before ×");
                bytes.extend(vec![byte; count - 1]);
            } else {
                assert_eq!(word.len(), 2, "{word}");
                bytes.push(u8::from_str_radix(word, 16).unwrap_or_else(|_| panic!("{word} is no byte")));
            }
        }
    }
    bytes
}

/// The image after the first so many events of the story.
fn after(count: usize) -> Vec<u8> {
    let mut image = ring();
    for event in events(ENTRY).into_iter().take(count) {
        step(&mut image, event).expect("the story isn't refused");
    }
    image
}

#[test]
fn the_examples_in_bytes() {
    let story = tape(&events(ENTRY));
    let input = include_bytes!("../../../../samples/entry-01.in");
    assert_eq!(input[..], [&[2, 0], &story[..]].concat());
    let [mut run, mut ask, mut fill] = [[0xEE; 80]; 3];
    assert_eq!(raw::ring_run(&mut ring(), &story, &mut [0; 48], &mut run), 0);
    assert_eq!(raw::ring_step(&mut after(2), &Event::new(1, 7).to_bytes(), &mut ask), 0);
    assert_eq!(raw::ring_step(&mut after(7), &Event::new(1, 2).to_bytes(), &mut fill), 0);
    let mut broken = after(13);
    (broken[17], broken[26]) = (0x01, 0x58);
    let mut survey = [0xEE; 80];
    assert_eq!(raw::ring_survey(&broken, &mut survey), 0);
    let load = load(4, 1, 8).expect("it is a load");
    let due: [(&str, &[u8]); 12] = [
        ("Image", &ring()),
        ("Image", &after(13)),
        ("Event", &Event::put(1, 7).to_bytes()),
        ("Block", &tape(&[Event::put(1, 7)])),
        ("Tape", &story),
        ("Load", &load),
        ("Ledger record", &ledger(ENTRY)),
        ("Result slice", &run),
        ("Result slice", &ask),
        ("Result slice", &fill),
        ("Result slice", &survey),
        ("ringrun's input", &input[..18]),
    ];
    let shown: Vec<(&str, Vec<u8>)> = blocks("hex").into_iter().map(|(at, block)| (at, bytes(&block))).collect();
    assert_eq!(shown.len(), due.len());
    for ((heading, shown), (due_heading, due)) in shown.iter().zip(due) {
        assert_eq!((*heading, &shown[..]), (due_heading, due), "{heading}");
    }
}

#[test]
fn the_examples_in_words() {
    let shown = blocks("text");
    let [(heading, list), nothing, story] = &shown[..] else { panic!("{} texts", shown.len()) };
    assert_eq!((*heading, events(list)), ("Event", events(ENTRY)));
    let outputs = [
        (nothing, include_str!("../../../../samples/size-n-and-home.out")),
        (story, include_str!("../../../../samples/entry-01.out")),
    ];
    for ((heading, output), due) in outputs {
        assert_eq!((*heading, &output[..]), ("ringrun's output", due));
    }
}
