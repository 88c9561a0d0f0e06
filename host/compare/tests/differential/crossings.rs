//! The known lists at whose end a request crosses the envelope on a link, from every home, and what follows them.

use crate::image::fresh;
use crate::steps::{likely, steps};
use crate::tally::CROSSING_LIST;
use crate::traffic::summed;
use crate::{Watch, Work};
use compare::tape::{event, Event};
use guide::{read_list, Random};
use samples::crossing_lists::CROSSINGS;

/// Every list for N = 2 or 3: as one run, by steps of which none is idle, and then further steps.
pub fn lists(watch: &mut Watch, n: usize, random: &mut Random) -> Work<()> {
    watch.tally.reached = true;
    for crossing in CROSSINGS.iter().filter(|crossing| crossing.n == n as u64) {
        for home in 0..n {
            let list = turned(crossing.list, home, n, random);
            let (image, idle) = summed(watch, fresh(n, home), &list)?;
            assert_eq!(idle, 0, "no event of the list is idle: {}", crossing.list);
            watch.tally.count_way(CROSSING_LIST);
            steps(watch, image, 60, likely, random)?;
        }
    }
    Ok(())
}

/// The events of a list `process.code ..` from home 0, for another home.
fn turned(list: &str, home: usize, n: usize, random: &mut Random) -> Vec<Event> {
    let turned = |(process, code): (u64, u64)| {
        let message = if code == 0 { random.words() } else { 0 };
        event((process as usize + home) % n, code as u8, message)
    };
    read_list(list).into_iter().map(turned).collect()
}
