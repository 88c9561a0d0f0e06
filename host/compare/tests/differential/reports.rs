//! What a difference looks like when it is reported.

use crate::case::Case;
use crate::image::fresh;
use crate::Watch;
use compare::calls::{plain, PROVED};
use compare::tape::{event, Tape};

/// The report of a run that ends with an idle event, which fault 7 doesn't count.
const REPORT: &str = "\
met with 7 events, shrunk to 1
run, image 32 bytes, result 80 bytes
image:  0200000000000000 0000000000000000 0001000000000000 0000000000000000
        N 2, empty, markers 0, counts 0 0, message 0
        0: stage 0, have
ledger: 0 bytes
events: 1.4
tape:   000001000204fcf1 0104000000000000 (62 times 0000000000000000)
differs: result byte 48: 01 (proved), 00 (plain)
";

#[test]
fn a_difference_is_shrunk_and_shown_as_bytes_and_as_events() {
    let sides = [PROVED, plain::<7>()];
    let events = [(1, 0, 7), (1, 3, 0), (1, 7, 0), (0, 6, 0), (0, 7, 0), (4, 0, 5), (4, 4, 0)];
    let tape = Tape::of(&events.map(|(process, code, message)| event(process, code, message)));
    let mut image = fresh(8, 3);
    image.extend([1, 2, 3]);
    let found = Watch::new(sides).call(&Case::run(image, tape, 100, 96)).err().expect("fault 7 shows here");
    assert_eq!(found.shrunk(&sides).to_string(), REPORT);
}
