//! Long lists of events, most of them possible, made quickly: sweeps round the ring, each process with an event that is
//! possible when its turn comes.

use crate::image::{at, size};
use compare::tape::Event;
use guide::{event, possible, Random};

/// How processes start puts and gets.
#[derive(Clone, Copy)]
pub enum Wishes {
    /// At once, with this many puts in a hundred starts.
    Puts(u64),
    /// Seldom, so that the ring stops in between.
    Seldom,
}

/// A list of so many events for a sound image.
pub fn swept(image: &[u8], events: usize, wishes: Wishes, random: &mut Random) -> Vec<Event> {
    let n = size(image).expect("an image to sweep has all its bytes");
    let mut ring = image.to_vec();
    let mut list = Vec::with_capacity(events);
    let mut process = random.index(n);
    let mut stride = 1;
    while list.len() < events {
        if random.one_in(32) {
            (process, stride) = (random.index(n), random.pick(&[0, 1, 1, n - 1]));
        }
        process = (process + stride) % n;
        let next = at_turn(&ring, process as u64, wishes, random);
        if let Some(event) = next.or_else(|| idle_now_and_then(process as u64, random)) {
            let number = plain::ring_step::<0>(&mut ring, &event, &mut [0; 80]);
            assert_eq!(number, 0, "an event is made for the image");
            list.push(event);
        }
    }
    list
}

/// An event for a process that has its turn: a possible one, or none.
fn at_turn(image: &[u8], process: u64, wishes: Wishes, random: &mut Random) -> Option<Event> {
    let codes = possible(image, process);
    if codes & !3 == 0 && codes != 0 {
        return start(image, process, wishes, random);
    }
    let first = 2 + random.below(6) as u32;
    let codes = u32::from(codes & !3);
    let turned = (codes | codes << 8) >> first;
    (codes != 0).then(|| event(process, u64::from((first + turned.trailing_zeros()) % 8), 0))
}

/// At times an event that may well be idle.
fn idle_now_and_then(process: u64, random: &mut Random) -> Option<Event> {
    random.one_in(100).then(|| event(process, 2 + random.below(6), 0))
}

/// A start, or none. Never one that gives everybody the same wish: the ring would stop for good.
fn start(image: &[u8], process: u64, wishes: Wishes, random: &mut Random) -> Option<Event> {
    let percent = match wishes {
        Wishes::Puts(percent) => percent,
        Wishes::Seldom if random.one_in(4) => 50,
        Wishes::Seldom => return None,
    };
    let n = usize::from(image[0]);
    let in_stages = |least, most| (0..n).filter(|p| (least..=most).contains(&image[at(*p)])).count();
    let (puts, gets) = (in_stages(1, 5), in_stages(6, 10));
    let put = puts + 1 < n && (gets + 1 == n || random.chance(percent));
    let (code, message) = if put { (0, random.words()) } else { (1, 0) };
    Some(event(process, code, message))
}
