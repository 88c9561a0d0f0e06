//! The rules of a sound image, one by one, to make sure that an image made to break one breaks just that one.

use crate::image::{at, ARRIVING, HAVE, MARK_EMPTY, MARK_FULL};

/// A rule: its name, and whether an image of 16 + 8N bytes keeps it.
type Rule = (&'static str, fn(&[u8]) -> bool);

/// The rule for N, without which there are no others.
pub const SIZE: &str = "N 2 to 64";

/// The others.
const RULES: [Rule; 15] = [
    ("status 0 or 1", |image| image[1] <= 1),
    ("markers in bits 0 and 1", |image| image[2] <= 3),
    ("header zeros", |image| [5, 6, 7, 12, 13, 14, 15].iter().all(|k| image[*k] == 0)),
    ("message 0 when empty", |image| image[1] != 0 || image[8..12] == [0; 4]),
    ("stage 0 to 10", |image| records(image).all(|r| r[0] <= 10)),
    ("flags in bits 0 to 2", |image| records(image).all(|r| r[1] <= 7)),
    ("record byte 3 zero", |image| records(image).all(|r| r[3] == 0)),
    ("note 0 outside stages 1 to 3", |image| records(image).all(|r| matches!(r[0], 1..=3) || r[4..] == [0; 4])),
    ("just one have or arriving", |image| ones(image, 1, HAVE) + ones(image, 1, ARRIVING) == 1),
    ("stages 3, 9, 10 have an empty envelope", |image| {
        records(image).all(|r| !matches!(r[0], 3 | 9 | 10) || (r[1] & HAVE != 0 && image[1] == 0))
    }),
    ("stages 4, 5, 8 have a full envelope", |image| {
        records(image).all(|r| !matches!(r[0], 4 | 5 | 8) || (r[1] & HAVE != 0 && image[1] == 1))
    }),
    ("mark full in stages 7 to 10", |image| records(image).all(|r| r[2] & MARK_FULL == 0 || matches!(r[0], 7..=10))),
    ("mark empty in stages 2 to 5", |image| records(image).all(|r| r[2] & MARK_EMPTY == 0 || matches!(r[0], 2..=5))),
    ("count of marks for full", |image| usize::from(image[3]) == ones(image, 2, MARK_FULL)),
    ("count of marks for empty", |image| usize::from(image[4]) == ones(image, 2, MARK_EMPTY)),
];

/// The rules that an image of at least 16 + 8N bytes breaks.
pub fn broken(image: &[u8]) -> Vec<&'static str> {
    let n = usize::from(image[0]);
    if !(2..=64).contains(&n) {
        return vec![SIZE];
    }
    let image = &image[..at(n)];
    RULES.iter().filter(|(_, kept)| !kept(image)).map(|(name, _)| *name).collect()
}

/// The process records of an image of 16 + 8N bytes.
pub fn records(image: &[u8]) -> impl Iterator<Item = &[u8]> {
    image[16..].chunks(8)
}

/// The records with this bit of this byte.
pub fn ones(image: &[u8], byte: usize, bit: u8) -> usize {
    records(image).filter(|record| record[byte] & bit != 0).count()
}
