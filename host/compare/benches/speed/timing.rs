//! Rounds of timed calls, the two sides by turns, and their medians.

use compare::calls::{Calls, PLAIN, PROVED};
use std::time::{Duration, Instant};

/// How long to look.
#[derive(Clone, Copy)]
pub struct Effort {
    /// Rounds of a line, and of a line whose single pass is long.
    pub rounds: usize,
    pub long_rounds: usize,
    /// The least time of a round.
    pub least: Duration,
}

impl Effort {
    pub const WHOLE: Effort = Effort { rounds: 31, long_rounds: 7, least: Duration::from_millis(4) };
    pub const QUICK: Effort = Effort { rounds: 5, long_rounds: 3, least: Duration::from_millis(1) };
}

/// Time spent on some units of work (events, calls or bytes).
#[derive(Clone, Copy, Default)]
pub struct Spent {
    pub time: Duration,
    pub units: usize,
}

impl Spent {
    /// Times some work.
    pub fn on(&mut self, units: usize, work: impl FnOnce()) {
        let start = Instant::now();
        work();
        self.time += start.elapsed();
        self.units += units;
    }

    fn each(&self) -> f64 {
        self.time.as_nanos() as f64 / self.units as f64
    }
}

/// What Rattle and plain took for a unit, in nanoseconds, and plain over Rattle turn by turn: medians all.
#[derive(Clone, Copy)]
pub struct Medians {
    pub rattle: f64,
    pub plain: f64,
    pub ratio: f64,
}

/// Times passes of Rattle and of plain by turns: each round repeats the pass of a side until the least time is spent.
pub fn by_turns(rounds: usize, least: Duration, mut pass: impl FnMut(&Calls, &mut Spent)) -> Medians {
    let mut round = |side: &Calls| {
        let mut spent = Spent::default();
        while spent.units == 0 || spent.time < least {
            pass(side, &mut spent);
        }
        spent.each()
    };
    let (mut rattle, mut plain) = (Vec::new(), Vec::new());
    for turn in 0..rounds {
        if turn % 2 == 0 {
            rattle.push(round(&PROVED));
            plain.push(round(&PLAIN));
        } else {
            plain.push(round(&PLAIN));
            rattle.push(round(&PROVED));
        }
    }
    let ratios = plain.iter().zip(&rattle).map(|(plain, rattle)| plain / rattle).collect();
    Medians { rattle: median(rattle), plain: median(plain), ratio: median(ratios) }
}

fn median(mut all: Vec<f64>) -> f64 {
    all.sort_by(f64::total_cmp);
    all[all.len() / 2]
}
