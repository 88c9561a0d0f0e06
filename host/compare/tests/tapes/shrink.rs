//! The ways to make a case smaller.

use crate::case::{Call, Case};
use compare::shrink::{changed, halvings, Smaller, Way};
use compare::smaller::smaller_tapes;

/// All of them, in the order in which they are tried.
pub const WAYS: [Way<Case>; 2] = [smaller_calls, smaller_sizes];

/// With a smaller home, a shorter list, a smaller tape, or a smaller count or seed.
fn smaller_calls(case: &Case) -> Smaller<'_, Case> {
    let calls: Smaller<Call> = match &case.call {
        Call::Fresh(home) => Box::new([0, home / 2].into_iter().map(Call::Fresh)),
        Call::Write(list) => Box::new(shorter(list).map(Call::Write)),
        Call::Read(tape) => Box::new(smaller_tapes(tape).map(Call::Read)),
        Call::Load(seed, count) => Box::new(smaller_loads(*seed, *count).into_iter()),
    };
    Box::new(calls.map(|call| changed(case, |case| case.call = call)))
}

/// With N 2, half of the output, a result slice of 80 bytes.
fn smaller_sizes(case: &Case) -> Smaller<'_, Case> {
    let sizes = [
        changed(case, |case| case.n = 2),
        changed(case, |case| case.output /= 2),
        changed(case, |case| case.result = 80),
    ];
    Box::new(sizes.into_iter())
}

/// Loads with fewer events, of the same seed or of a smaller one.
fn smaller_loads(seed: u64, count: u64) -> Vec<Call> {
    let counts = [1, count / 2, count.saturating_sub(1)].into_iter().filter(|smaller| *smaller < count);
    let seeds = [1, seed / 2].into_iter().filter(|smaller| *smaller < seed);
    counts.map(|count| Call::Load(seed, count)).chain(seeds.map(|seed| Call::Load(seed, count))).collect()
}

/// Lists with some events fewer: a half, a quarter, and so on, from either end; small ones by any one event.
fn shorter(list: &[u8]) -> impl Iterator<Item = Vec<u8>> + '_ {
    let events = list.len() / 8;
    let ends =
        halvings(events / 2).flat_map(|fewer| [list[8 * fewer..].to_vec(), list[..list.len() - 8 * fewer].to_vec()]);
    let any_one = (0..events).filter(move |_| events <= 200);
    ends.chain(any_one.map(|k| [&list[..8 * k], &list[8 * k + 8..]].concat()))
}
