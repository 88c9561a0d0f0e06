//! Makes a case on which two sides differ as small as it can, while they still differ on it.

use std::iter;

use crate::case::Case;

/// What a case could become, one smaller case after another.
pub type Smaller<'a, C> = Box<dyn Iterator<Item = C> + 'a>;

/// A way to make a case smaller. No case that it gives may lead back to the one that it was given.
pub type Way<C> = for<'a> fn(&'a C) -> Smaller<'a, C>;

/// What may be spent on one case: a trial costs the bytes of its events, and some more.
const BUDGET: usize = 400_000_000;

/// The smallest case found from this one for which `differ` still holds: each way is gone to its end, where a smaller
/// case takes the place of the one before and the way goes on in it, and all of them until none finds anything.
pub fn shrink<C: Case>(mut case: C, differ: impl Fn(&C) -> bool) -> C {
    let mut left = BUDGET;
    let mut still_differs = |case: &C, smaller: &C| {
        let price = 8 * smaller.events() + 1_000;
        if smaller == case || left < price {
            return false;
        }
        left -= price;
        differ(smaller)
    };
    loop {
        let before = case.clone();
        for way in C::WAYS {
            let mut from = 0;
            loop {
                let smaller = way(&case).enumerate().skip(from).find(|(_, smaller)| still_differs(&case, smaller));
                let Some(found) = smaller else { break };
                (from, case) = found;
            }
        }
        if case == before {
            return case;
        }
    }
}

/// A copy with a change made to it.
pub fn changed<T: Clone>(value: &T, change: impl FnOnce(&mut T)) -> T {
    let mut value = value.clone();
    change(&mut value);
    value
}

/// A number, its half, its quarter, and so on, without 0.
pub fn halvings(number: usize) -> impl Iterator<Item = usize> {
    iter::successors(Some(number), |number| Some(number / 2)).take_while(|number| *number > 0)
}
