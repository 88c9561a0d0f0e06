//! Surveys, each held against what the image's bytes say one by one: of images that are unsound for each cause, with
//! every single bit turned, and of any bytes. Beside these every image that another call gets is surveyed, on both
//! sides.

use crate::case::Case;
use crate::image::{at, fresh, size, sound, ARRIVING, HAVE, MARK_EMPTY, MARK_FULL};
use crate::refusals::{refused_image, RESULT_SHORT};
use crate::rules::{broken, ones, records};
use crate::steps::longer;
use crate::unsound::image_causes;
use crate::{Watch, Work};
use compare::compare::Answer;
use compare::watch::Found;
use guide::{guided_event, Random};

/// What a survey may find.
pub const FOUND: [&str; 12] = [
    "survey: sound",
    "survey: not sound",
    "survey: no flag",
    "survey: one flag",
    "survey: two flags",
    "survey: more flags",
    "survey: some marked for full",
    "survey: some marked for empty",
    "survey: sound, some marked for each",
    "survey: not sound, some marked for each",
    "survey: process 63 marked for full",
    "survey: process 63 marked for empty",
];

/// A survey of an image with a bit turned.
pub const BIT_TURNED: &str = "survey: a bit turned";

/// A survey of any bytes behind an N.
pub const ANY_BYTES: &str = "survey: any bytes";

/// Which of these an answer has.
pub fn found(answer: &Answer) -> impl Iterator<Item = &'static str> {
    let [verdict, _, flags, full, empty] = [0, 1, 2, 3, 4].map(|index| answer.word(index).unwrap_or_default());
    let each = full != 0 && empty != 0;
    let has = [
        verdict == 0,
        verdict != 0,
        flags == 0,
        flags == 1,
        flags == 2,
        flags > 2,
        full != 0,
        empty != 0,
        verdict == 0 && each,
        verdict != 0 && each,
        full >> 63 == 1,
        empty >> 63 == 1,
    ];
    FOUND.into_iter().zip(has).filter(|(_, has)| *has).map(|(name, _)| name)
}

/// Images that the other calls refuse: by the length or N they are refused here too, and else they are answered. With a
/// short result all of these are refused.
pub fn causes(watch: &mut Watch, n: usize, random: &mut Random) -> Work<()> {
    for cause in image_causes() {
        for process in [0, random.index(n), n - 1] {
            let image = refused_image(&cause, n, process, random);
            let short = Case::survey(image.clone(), random.index(80));
            if cause.refuses_survey() {
                watch.refused(&short, cause.number, 0, &cause.name)?;
                watch.refused(&Case::survey(image, 80), cause.number, 0, &cause.name)?;
            } else {
                watch.refused(&short, 10, 0, RESULT_SHORT)?;
                exact(watch, image)?;
                watch.tally.unsound.add(cause.name.clone(), 1);
            }
        }
    }
    Ok(())
}

/// Every bit turned, one at a time, in images of N processes, each in a buffer of its length and in one with room for
/// 64 processes, since the bits of N are turned too: the fresh ring, and images with processes marked, three that a
/// ring gets to and two that are sound by chance.
pub fn every_bit(watch: &mut Watch, n: usize, random: &mut Random) -> Work<()> {
    let mut images = vec![fresh(n, random.index(n))];
    images.extend((0..3).map(|_| used(n, random)));
    images.extend([MARK_FULL, MARK_EMPTY].map(|mark| marked(n, mark, random)));
    for image in images {
        let further = (image.len()..at(64) + 1).map(|_| random.draw() as u8);
        let roomy: Vec<u8> = image.iter().copied().chain(further).collect();
        for image in [image, roomy] {
            exact(watch, image.clone())?;
            for bit in 0..8 * at(n) {
                let mut turned = image.clone();
                turned[bit / 8] ^= 1 << (bit % 8);
                exact(watch, turned)?;
                watch.tally.count_way(BIT_TURNED);
            }
        }
    }
    Ok(())
}

/// The image of a ring in use, some processes of which are marked.
fn used(n: usize, random: &mut Random) -> Vec<u8> {
    let mut image = fresh(n, random.index(n));
    let mut events = 0;
    while events < 20 * n || image[3..5] == [0, 0] {
        let event = guided_event(&image, 0, random);
        assert_eq!(plain::ring_step::<0>(&mut image, &event, &mut [0; 80]), 0);
        events += 1;
    }
    image
}

/// A sound image by chance in which processes are marked for full and for empty, the last with this mark.
fn marked(n: usize, mark: u8, random: &mut Random) -> Vec<u8> {
    loop {
        let image = sound(random, n);
        if image[3] > 0 && image[4] > 0 && image[at(n - 1) + 2] & mark != 0 {
            return image;
        }
    }
}

/// Any bytes behind N: as they come, few bits set, most bits set, and bytes of none or all bits.
pub fn any_bytes(watch: &mut Watch, n: usize, random: &mut Random) -> Work<()> {
    for k in 0..200 {
        let byte = |_| {
            let [a, b, c] = [random.draw(), random.draw(), random.draw()].map(|drawn| drawn as u8);
            match k % 4 {
                0 => a,
                1 => a & b & c,
                2 => a | b | c,
                _ => [0, 255][usize::from(a & 1)],
            }
        };
        let mut image: Vec<u8> = (0..at(n)).map(byte).collect();
        image[0] = n as u8;
        exact(watch, longer(image, random))?;
        watch.tally.count_way(ANY_BYTES);
    }
    Ok(())
}

/// A survey that must tell what the bytes say one by one, and the verdict of stopped.
fn exact(watch: &mut Watch, image: Vec<u8>) -> Work<()> {
    let stopped = watch.call(&Case::stopped(image.clone(), 80))?.number;
    let case = Case::survey(image, 80);
    let answer = watch.call(&case)?;
    let told = (answer.number, [0, 1, 2, 3, 4].map(|index| answer.word(index).unwrap_or(u64::MAX)));
    let due = due(&case.image);
    let verdict = if told.0 == 0 { told.1[0] } else { told.0 };
    if told == due && verdict == stopped {
        return Ok(());
    }
    Err(Found::new(&case, vec![format!("both tell {told:?}, due is {due:?}, and stopped has {stopped}")]))
}

/// The number and the first words that are due for an image.
fn due(image: &[u8]) -> (u64, [u64; 5]) {
    let Some(n) = size(image) else {
        let no_ring = image.len() >= 16 && !(2..=64).contains(&image[0]);
        return (if no_ring { 4 } else { 3 }, [0; 5]);
    };
    let image = &image[..at(n)];
    let verdict = if broken(image).is_empty() { 0 } else { 4 };
    let flags = ones(image, 1, HAVE) + ones(image, 1, ARRIVING);
    (0, [verdict, 0, flags as u64, set(image, MARK_FULL), set(image, MARK_EMPTY)])
}

/// The processes with this mark, each the digit of its number.
fn set(image: &[u8], mark: u8) -> u64 {
    let marked = records(image).enumerate().filter(|(_, record)| record[2] & mark != 0);
    marked.map(|(process, _)| 1 << process).sum()
}
