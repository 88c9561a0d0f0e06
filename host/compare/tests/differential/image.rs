//! Images to give to a call: fresh ones, and sound ones by chance, whether or not a ring gets there.

use guide::Random;

/// The bytes of the header.
pub const HEADER: usize = 16;
/// The bytes of a process record.
pub const RECORD: usize = 8;
/// Flag bit: the process has the envelope.
pub const HAVE: u8 = 1;
/// Flag bit: the envelope arrives on the link from the left.
pub const ARRIVING: u8 = 2;
/// Flag bit: news for the put thread.
pub const NEWS: u8 = 4;
/// Bit of byte 2: marked for full.
pub const MARK_FULL: u8 = 16;
/// Bit of byte 2: marked for empty.
pub const MARK_EMPTY: u8 = 32;

/// The bytes of an image for N.
pub fn length(n: usize) -> usize {
    HEADER + RECORD * n
}

/// Where the record of a process starts.
pub fn at(process: usize) -> usize {
    HEADER + RECORD * process
}

/// The N of an image that has all its bytes.
pub fn size(image: &[u8]) -> Option<usize> {
    let n = usize::from(*image.first()?);
    ((2..=64).contains(&n) && image.len() >= length(n)).then_some(n)
}

/// The fresh ring.
pub fn fresh(n: usize, home: usize) -> Vec<u8> {
    let mut image = vec![0; length(n)];
    image[0] = n as u8;
    image[at(home) + 1] = HAVE;
    image
}

/// Writes counts that equal the marks.
pub fn recount(image: &mut [u8]) {
    let n = (image.len() - HEADER) / RECORD;
    let marks = |bit: u8| (0..n).filter(|p| image[at(*p) + 2] & bit != 0).count() as u8;
    let (full, empty) = (marks(MARK_FULL), marks(MARK_EMPTY));
    image[3] = full;
    image[4] = empty;
}

/// Where the envelope is to be, and how.
#[derive(Clone, Copy)]
pub struct Envelope {
    /// Full.
    pub full: bool,
    /// The process.
    pub process: usize,
    /// It has it, or else it arrives there.
    pub had: bool,
}

/// An envelope somewhere.
pub fn any_envelope(random: &mut Random, n: usize) -> Envelope {
    Envelope { full: random.flip(), process: random.index(n), had: !random.one_in(3) }
}

/// A sound image: every field by chance within its rule.
pub fn sound(random: &mut Random, n: usize) -> Vec<u8> {
    let envelope = any_envelope(random, n);
    sound_with(random, n, envelope)
}

/// A sound image with the envelope there.
pub fn sound_with(random: &mut Random, n: usize, envelope: Envelope) -> Vec<u8> {
    let mut image = vec![0; length(n)];
    image[0] = n as u8;
    image[1] = u8::from(envelope.full);
    image[2] = random.index(4) as u8;
    if envelope.full {
        image[8..12].copy_from_slice(&random.words().to_le_bytes());
    }
    let rare = random.pick(&[1, 2, 4, 16, 1_000, 1_000]);
    for process in 0..n {
        let flag = match envelope {
            Envelope { process: p, .. } if p != process => 0,
            Envelope { had: true, .. } => HAVE,
            _ => ARRIVING,
        };
        let stage = any_stage(random, flag == HAVE, envelope.full);
        let record = any_record(random, stage, flag, rare);
        image[at(process)..at(process + 1)].copy_from_slice(&record);
    }
    recount(&mut image);
    image
}

/// A stage that a process may be in, with or without the envelope.
pub fn any_stage(random: &mut Random, has: bool, full: bool) -> u8 {
    match (has && !random.one_in(3), full) {
        (true, true) => random.pick(&[4, 5, 8]),
        (true, false) => random.pick(&[3, 9, 10]),
        _ => random.pick(&[0, 1, 2, 2, 6, 7, 7]),
    }
}

/// A record of this stage and flag, its other bits set once in `rare` or so.
pub fn any_record(random: &mut Random, stage: u8, flag: u8, rare: u64) -> [u8; RECORD] {
    let mut bits = 0;
    for bit in [1, 2, 4, 8, 64, 128, mark_allowed(stage)] {
        if random.one_in(rare) {
            bits |= bit;
        }
    }
    let news = if random.flip() { NEWS } else { 0 };
    let note = match stage {
        1..=3 => random.words(),
        _ => 0,
    };
    let [n0, n1, n2, n3] = note.to_le_bytes();
    [stage, flag | news, bits, 0, n0, n1, n2, n3]
}

/// The mark that may stand in a stage, or 0.
pub fn mark_allowed(stage: u8) -> u8 {
    match stage {
        7..=10 => MARK_FULL,
        2..=5 => MARK_EMPTY,
        _ => 0,
    }
}

/// A sound image in which this process is in this stage.
pub fn sound_in_stage(random: &mut Random, n: usize, process: usize, stage: u8) -> Vec<u8> {
    let envelope = match stage {
        3 | 9 | 10 => Envelope { full: false, process, had: true },
        4 | 5 | 8 => Envelope { full: true, process, had: true },
        _ => any_envelope(random, n),
    };
    sound_in_stage_with(random, n, process, stage, envelope)
}

/// A sound image in which this process is in this stage and the envelope is there. A stage that needs the envelope
/// must have it.
pub fn sound_in_stage_with(random: &mut Random, n: usize, process: usize, stage: u8, envelope: Envelope) -> Vec<u8> {
    let mut image = sound_with(random, n, envelope);
    let flag = image[at(process) + 1] & (HAVE | ARRIVING);
    let rare = random.pick(&[2, 1_000]);
    let record = any_record(random, stage, flag, rare);
    image[at(process)..at(process + 1)].copy_from_slice(&record);
    recount(&mut image);
    image
}
