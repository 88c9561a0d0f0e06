//! What the two sides of the benchmark must have in common.

use compare::calls::{Calls, PLAIN, PROVED};

/// Has both sides do the same and gives what they gave, which must be equal.
pub fn same<T: PartialEq>(what: &str, mut seen: impl FnMut(&Calls) -> T) -> T {
    let proved = seen(&PROVED);
    let plain = seen(&PLAIN);
    assert!(proved == plain, "the two sides differ: {what}");
    plain
}
