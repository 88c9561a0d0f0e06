//! Images that refusals 3 and 4 turn down: for each rule of soundness and each way to break it, one that breaks it
//! alone.

use crate::image::{
    any_envelope, any_record, at, mark_allowed, recount, sound_in_stage, sound_with, Envelope, ARRIVING, HAVE,
    MARK_EMPTY, MARK_FULL, NEWS,
};
use crate::rules::{broken, SIZE};
use guide::Random;

/// Makes an image for N, wrong at a process.
type MakeImage = Box<dyn Fn(&mut Random, usize, usize) -> Vec<u8>>;

/// A way to make an image that is refused.
pub struct ImageCause {
    /// What is wrong.
    pub name: String,
    /// The refusal, 3 or 4.
    pub number: u64,
    /// The rules that are broken, for 4.
    breaks: Vec<&'static str>,
    make: MakeImage,
}

impl ImageCause {
    /// Such an image for N, wrong at this process if it is wrong at one.
    pub fn image(&self, random: &mut Random, n: usize, process: usize) -> Vec<u8> {
        let image = (self.make)(random, n, process);
        if self.number == 4 {
            assert_eq!(broken(&image), self.breaks, "{} breaks other rules than it says", self.name);
        }
        image
    }

    /// Whether a survey is refused for it, too: by the length or by N.
    pub fn refuses_survey(&self) -> bool {
        self.number == 3 || self.breaks == [SIZE]
    }
}

/// All of them.
pub fn image_causes() -> Vec<ImageCause> {
    let mut causes = Causes(Vec::new());
    lengths(&mut causes);
    sizes(&mut causes);
    header(&mut causes);
    counts(&mut causes);
    records(&mut causes);
    envelopes(&mut causes);
    stages(&mut causes);
    marks(&mut causes);
    causes.0
}

/// The causes gathered so far.
struct Causes(Vec<ImageCause>);

impl Causes {
    /// A cause of refusal 3.
    fn short(&mut self, name: &str, make: impl Fn(&mut Random, usize, usize) -> Vec<u8> + 'static) {
        self.0.push(ImageCause { name: name.to_string(), number: 3, breaks: Vec::new(), make: Box::new(make) });
    }

    /// A cause of refusal 4.
    fn unsound(
        &mut self,
        name: impl Into<String>,
        breaks: &[&'static str],
        make: impl Fn(&mut Random, usize, usize) -> Vec<u8> + 'static,
    ) {
        self.0.push(ImageCause { name: name.into(), number: 4, breaks: breaks.to_vec(), make: Box::new(make) });
    }

    /// A cause of refusal 4 that is a change to a sound image with the envelope on a link.
    fn changed(
        &mut self,
        name: impl Into<String>,
        rule: &'static str,
        change: impl Fn(&mut Random, &mut [u8], usize) + 'static,
    ) {
        self.unsound(name, &[rule], move |random, n, process| {
            let mut image = on_link(random, n);
            change(random, &mut image, process);
            image
        });
    }
}

/// A sound image with the envelope on a link, where no process is in a stage that needs it.
fn on_link(random: &mut Random, n: usize) -> Vec<u8> {
    let envelope = Envelope { had: false, ..any_envelope(random, n) };
    sound_with(random, n, envelope)
}

/// A process other than this one.
fn other(random: &mut Random, n: usize, process: usize) -> usize {
    (process + random.within(1, n - 1)) % n
}

/// Buffers that are too short, and the order of that among the tests of an image.
fn lengths(causes: &mut Causes) {
    causes.short("under 16 bytes", |random, n, _| {
        let length = random.index(16);
        on_link(random, n)[..length].to_vec()
    });
    causes.short("15 bytes", |random, n, _| on_link(random, n)[..15].to_vec());
    causes.short("under 16 bytes, N 65", |random, n, _| {
        let length = random.within(1, 15);
        let mut image = on_link(random, n);
        image[0] = 65;
        image[..length].to_vec()
    });
    causes.short("16 bytes", |random, n, _| on_link(random, n)[..16].to_vec());
    causes.short("under 16 + 8N bytes", |random, n, _| {
        let length = random.within(16, at(n) - 1);
        on_link(random, n)[..length].to_vec()
    });
    causes.short("a byte under 16 + 8N", |random, n, _| on_link(random, n)[..at(n) - 1].to_vec());
    causes.short("a byte under 16 + 8N, status 2", |random, n, _| {
        let mut image = on_link(random, n);
        image[1] = 2;
        image[..at(n) - 1].to_vec()
    });
    causes.unsound("16 bytes, N 65", &[SIZE], |random, n, _| {
        let mut image = on_link(random, n);
        image[0] = 65;
        image[..16].to_vec()
    });
}

/// N in the image.
fn sizes(causes: &mut Causes) {
    for size in [0, 1, 65, 66, 128, 255] {
        causes.unsound(format!("N {size}"), &[SIZE], move |random, n, _| {
            let mut image = on_link(random, n);
            image[0] = size;
            if random.flip() {
                image.resize(at(usize::from(size)).max(image.len()), 0);
            }
            image
        });
    }
}

/// The header but for the counts.
fn header(causes: &mut Causes) {
    for bit in 1..8 {
        causes.changed(format!("status bit {bit}"), "status 0 or 1", move |_, image, _| {
            image[1] |= 1 << bit;
            image[8..12].fill(0);
        });
    }
    for bit in 2..8 {
        causes
            .changed(format!("markers bit {bit}"), "markers in bits 0 and 1", move |_, image, _| image[2] |= 1 << bit);
    }
    for byte in [5, 6, 7, 12, 13, 14, 15] {
        causes.changed(format!("header byte {byte}"), "header zeros", move |random, image, _| {
            image[byte] = random.set_byte();
        });
    }
    for byte in 8..12 {
        let name = format!("message byte {byte} when empty");
        causes.unsound(name, &["message 0 when empty"], move |random, n, _| {
            let envelope = Envelope { full: false, ..any_envelope(random, n) };
            let mut image = sound_with(random, n, envelope);
            image[byte] = random.set_byte();
            image
        });
    }
}

/// The two counts.
fn counts(causes: &mut Causes) {
    for (byte, kind, stage) in [(3, "full", 7), (4, "empty", 2)] {
        let rule = ["count of marks for full", "count of marks for empty"][byte - 3];
        let marked = move |random: &mut Random, n: usize, process: usize| {
            let mut image = sound_in_stage(random, n, process, stage);
            image[at(process) + 2] |= mark_allowed(stage);
            recount(&mut image);
            image
        };
        let offs = [("one less", 0xFF), ("one more", 1), ("64 more", 64), ("128 more", 128)];
        for (name, off) in offs {
            causes.unsound(format!("count for {kind} {name}"), &[rule], move |random, n, process| {
                let mut image = marked(random, n, process);
                image[byte] = image[byte].wrapping_add(off);
                image
            });
        }
        causes.unsound(format!("count for {kind} 0"), &[rule], move |random, n, process| {
            let mut image = marked(random, n, process);
            image[byte] = 0;
            image
        });
    }
    let both = ["count of marks for full", "count of marks for empty"];
    causes.unsound("counts one up, one down", &both, |random, n, process| {
        let mut image = sound_in_stage(random, n, process, 7);
        image[at(process) + 2] |= MARK_FULL;
        recount(&mut image);
        image[3] -= 1;
        image[4] += 1;
        image
    });
}

/// The ranges and zeros of a process record.
fn records(causes: &mut Causes) {
    for stage in [11, 12, 15, 16, 26, 128, 255] {
        causes.changed(format!("stage {stage}"), "stage 0 to 10", move |_, image, process| {
            let record = &mut image[at(process)..at(process + 1)];
            record[0] = stage;
            record[2] &= !(MARK_FULL | MARK_EMPTY);
            record[4..].fill(0);
            recount(image);
        });
    }
    for bit in 3..8 {
        causes.changed(format!("flags bit {bit}"), "flags in bits 0 to 2", move |_, image, process| {
            image[at(process) + 1] |= 1 << bit;
        });
    }
    causes.changed("record byte 3", "record byte 3 zero", |random, image, process| {
        image[at(process) + 3] = random.set_byte();
    });
    for stage in [0, 4, 5, 6, 7, 8, 9, 10] {
        let name = format!("note in stage {stage}");
        causes.unsound(name, &["note 0 outside stages 1 to 3"], move |random, n, process| {
            let mut image = sound_in_stage(random, n, process, stage);
            image[at(process) + random.within(4, 7)] = random.set_byte();
            image
        });
    }
}

/// The have and arriving flags.
fn envelopes(causes: &mut Causes) {
    const RULE: &str = "just one have or arriving";
    causes.changed("no have, no arriving", RULE, |_, image, _| {
        for record in image[16..].chunks_mut(8) {
            record[1] &= NEWS;
        }
    });
    let pairs = [
        ("have twice", true, HAVE),
        ("have here, arriving there", true, ARRIVING),
        ("arriving here, have there", false, HAVE),
        ("arriving twice", false, ARRIVING),
    ];
    for (name, had, flag) in pairs {
        causes.unsound(name, &[RULE], move |random, n, process| {
            let envelope = Envelope { full: random.flip(), process, had };
            let mut image = sound_with(random, n, envelope);
            image[at(other(random, n, process)) + 1] |= flag;
            image
        });
    }
    causes.unsound("have and arriving at one process", &[RULE], |random, n, process| {
        let envelope = Envelope { full: random.flip(), process, had: random.flip() };
        let mut image = sound_with(random, n, envelope);
        image[at(process) + 1] |= HAVE | ARRIVING;
        image
    });
}

/// The stages that need the envelope, without it and with the wrong status.
fn stages(causes: &mut Causes) {
    for stage in [3, 9, 10, 4, 5, 8] {
        let needs_full = matches!(stage, 4 | 5 | 8);
        let rule = match needs_full {
            true => "stages 4, 5, 8 have a full envelope",
            false => "stages 3, 9, 10 have an empty envelope",
        };
        let put = move |random: &mut Random, image: &mut Vec<u8>, process: usize| {
            let flag = image[at(process) + 1] & (HAVE | ARRIVING);
            let record = any_record(random, stage, flag, 2);
            image[at(process)..at(process + 1)].copy_from_slice(&record);
            recount(image);
        };
        causes.unsound(format!("stage {stage}, envelope elsewhere"), &[rule], move |random, n, process| {
            let envelope = Envelope { full: needs_full, process: other(random, n, process), had: random.flip() };
            let mut image = sound_with(random, n, envelope);
            put(random, &mut image, process);
            image
        });
        causes.unsound(format!("stage {stage}, envelope arriving"), &[rule], move |random, n, process| {
            let mut image = sound_with(random, n, Envelope { full: needs_full, process, had: false });
            put(random, &mut image, process);
            image
        });
        causes.unsound(format!("stage {stage}, wrong status"), &[rule], move |random, n, process| {
            let mut image = sound_with(random, n, Envelope { full: !needs_full, process, had: true });
            put(random, &mut image, process);
            image
        });
    }
}

/// The marks in each stage where they may not stand.
fn marks(causes: &mut Causes) {
    let kinds =
        [("full", MARK_FULL, "mark full in stages 7 to 10"), ("empty", MARK_EMPTY, "mark empty in stages 2 to 5")];
    for (kind, mark, rule) in kinds {
        for stage in (0..=10).filter(|stage| mark_allowed(*stage) != mark) {
            causes.unsound(format!("mark {kind} in stage {stage}"), &[rule], move |random, n, process| {
                let mut image = sound_in_stage(random, n, process, stage);
                image[at(process) + 2] |= mark;
                recount(&mut image);
                image
            });
        }
    }
}
