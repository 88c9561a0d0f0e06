//! Runs: long tapes from fresh rings and from sound images, and the longest tape that there may be.

use crate::case::Case;
use crate::image::{fresh, sound};
use crate::steps::longer;
use crate::sweep::{swept, Wishes};
use crate::tally::NO_EVENTS;
use crate::{Watch, Work};
use compare::damage::{any_event, second_sum_to_zero, sum_to_zero};
use compare::tape::{event, Block, Event, Tape, MOST_BLOCKS, SLOTS};
use compare::watch::Found;
use guide::{guided, Random};

/// Long runs, one after another on one image, with a ledger that has room for a record an event, or just enough.
pub fn long(watch: &mut Watch, n: usize, random: &mut Random) -> Work<()> {
    let mut image = fresh(n, random.index(n));
    for wishes in [Wishes::Puts(50), Wishes::Puts(85), Wishes::Puts(15), Wishes::Seldom] {
        let list = swept(&image, 80_000, wishes, random);
        image = run(watch, image, &list, random.flip())?;
    }
    Ok(())
}

/// Shorter runs by the event chooser that looks before each event, from fresh rings and sound images.
pub fn guided_runs(watch: &mut Watch, n: usize, random: &mut Random) -> Work<()> {
    for k in 0..40 {
        let image = if k % 4 == 0 { fresh(n, random.index(n)) } else { sound(random, n) };
        let many = random.within(1, 250);
        let list = guided(&image, many, random);
        run(watch, longer(image, random), list.as_chunks().0, random.flip())?;
    }
    Ok(())
}

/// Runs of any events on sound images; most are idle.
pub fn uniform_runs(watch: &mut Watch, n: usize, random: &mut Random) -> Work<()> {
    for k in 0..12 {
        let image = if k % 4 == 0 { fresh(n, random.index(n)) } else { sound(random, n) };
        let list: Vec<Event> = (0..random.within(1, 5_000)).map(|_| any_event(random, n)).collect();
        run(watch, image, &list, random.flip())?;
    }
    Ok(())
}

/// Tapes of every number of events from 0 to 130, that is up to three blocks, and of whole blocks.
pub fn every_count(watch: &mut Watch, n: usize, random: &mut Random) -> Work<()> {
    let mut image = fresh(n, random.index(n));
    for many in (0..=130).chain([SLOTS * 5, SLOTS * 6 + 1, SLOTS * 300]) {
        let list = swept(&image, many, Wishes::Puts(50), random);
        image = run(watch, image, &list, random.flip())?;
    }
    Ok(())
}

/// Tapes of no events, on fresh rings and sound images, with ledgers of every length up to some records: all counts are
/// 0, and image and ledger are as they were.
pub fn no_events(watch: &mut Watch, n: usize, random: &mut Random) -> Work<()> {
    for ledger in 0..=30 {
        let image = if ledger % 4 == 0 { fresh(n, random.index(n)) } else { sound(random, n) };
        let case = Case::run(longer(image, random), Tape::default(), ledger, random.pick(&[80, 81, 100]));
        let answer = watch.accepted(&case)?;
        let counted = (0..10).any(|word| answer.word(word) != Some(0));
        if counted || answer.image != case.image || answer.output != answer.lent {
            return Err(Found::new(&case, vec!["both count something, or change image or ledger".to_string()]));
        }
        watch.tally.count_way(NO_EVENTS);
    }
    Ok(())
}

/// Blocks whose check has a half that is 0.
pub fn zero_halves(watch: &mut Watch, n: usize, random: &mut Random) -> Work<()> {
    for make_zero in [sum_to_zero, second_sum_to_zero] {
        let list: Vec<Event> = (0..random.within(1, SLOTS)).map(|_| any_event(random, n)).collect();
        let mut block = Block::new(0, &list);
        make_zero(&mut block);
        let tape = Tape { blocks: vec![block], tail: Vec::new() };
        watch.accepted(&Case::run(sound(random, n), tape, 12 * SLOTS, 80))?;
    }
    Ok(())
}

/// The longest tape, and the one that is a block too long.
pub fn longest(watch: &mut Watch, n: usize, random: &mut Random) -> Work<()> {
    let image = fresh(n, random.index(n));
    let list = swept(&image, SLOTS * MOST_BLOCKS, Wishes::Puts(50), random);
    let image = run(watch, image, &list, false)?;
    let mut tape = Tape::of(&list);
    assert_eq!(tape.blocks.len(), MOST_BLOCKS);
    tape.blocks.push(Block::new(0, &[event(0, 7, 0)]));
    watch.refused(&Case::run(image, tape, 12, 80), 6, 0, "too long")
}

/// A run that is accepted: with a ledger for a record an event, or else for the records alone.
fn run(watch: &mut Watch, image: Vec<u8>, list: &[Event], roomy: bool) -> Work<Vec<u8>> {
    let tape = Tape::of(list);
    let room = 12 * if roomy { list.len() } else { records(&image, &tape) };
    Ok(watch.accepted(&Case::run(image, tape, room, 80))?.image)
}

/// The records that a run of this tape writes.
pub fn records(image: &[u8], tape: &Tape) -> usize {
    let mut result = [0; 80];
    let mut ledger = vec![0; 12 * tape.event_count()];
    let number = plain::ring_run::<0>(&mut image.to_vec(), &tape.bytes(), &mut ledger, &mut result);
    assert_eq!(number, 0, "records are counted of runs that are accepted");
    u64::from_le_bytes(*result[56..].first_chunk().expect("the result has 80 bytes")) as usize
}
