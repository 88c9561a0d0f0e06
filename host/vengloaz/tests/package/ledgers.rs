//! The records of a ledger, and the first difference of two.

use crate::support::{ledger, ENTRY};
use vengloaz::{first_difference, records, Difference, Outcome, Record};

#[test]
fn records_end_where_bytes_are_none() {
    let fill = [1, 2, 3, 4, 9, 2, 0, 0, 5, 6, 7, 8];
    let first = Record { event: 0x0403_0201, process: 9, outcome: Outcome::Fill(0x0807_0605) };
    assert_eq!(records(&fill).collect::<Vec<_>>(), [first]);
    assert_eq!(records(&fill[..11]).count(), 0);
    assert_eq!(records(&[&fill[..], &[0; 12], &fill].concat()).count(), 1);
    let not_records: [(usize, u8); 7] = [(5, 0), (5, 1), (5, 6), (5, 4), (5, 5), (6, 1), (7, 1)];
    for (byte, value) in not_records {
        let mut bytes = fill;
        bytes[byte] = value;
        assert_eq!(Record::from_bytes(bytes), None, "byte {byte} is {value}");
    }
}

#[test]
fn every_outcome_of_a_record() {
    let all = [
        (Outcome::Fill(300), [8, 1, 0, 0, 63, 2, 0, 0, 44, 1, 0, 0], "264 63 fill 300"),
        (Outcome::Take(0), [8, 1, 0, 0, 63, 3, 0, 0, 0, 0, 0, 0], "264 63 take 0"),
        (Outcome::Sent, [8, 1, 0, 0, 63, 4, 0, 0, 0, 0, 0, 0], "264 63 sent 0"),
        (Outcome::Got, [8, 1, 0, 0, 63, 5, 0, 0, 0, 0, 0, 0], "264 63 got 0"),
    ];
    for (outcome, bytes, line) in all {
        let record = Record { event: 264, process: 63, outcome };
        assert_eq!(record.to_bytes(), bytes);
        assert_eq!(Record::from_bytes(bytes), Some(record));
        assert_eq!(record.to_string(), line);
    }
}

/// Each byte of the core's ledger in turn: the record that it is in is named, with what both have there.
#[test]
fn the_first_differing_byte_names_its_record() {
    let reference = ledger(ENTRY);
    assert_eq!((reference.len(), first_difference(&reference, &reference)), (48, None));
    for at in 0..reference.len() {
        let mut core = reference.clone();
        core[at] ^= 0x80;
        core[47] ^= 1;
        let record = at / 12;
        let there = 12 * record..12 * (record + 1);
        let due = Difference { record, reference: &reference[there.clone()], core: &core[there] };
        assert_eq!(first_difference(&reference, &core), Some(due));
    }
}

/// A ledger that ends early, on either side and at every byte.
#[test]
fn a_shorter_ledger_differs_where_it_ends() {
    let whole = ledger(ENTRY);
    for length in 0..whole.len() {
        let short = &whole[..length];
        let record = length / 12;
        let (one, other) = (&whole[12 * record..12 * (record + 1)], &short[12 * record..]);
        let due = Difference { record, reference: one, core: other };
        assert_eq!(first_difference(&whole, short), Some(due));
        let due = Difference { record, reference: other, core: one };
        assert_eq!(first_difference(short, &whole), Some(due));
    }
    assert_eq!(first_difference(&[], &[]), None);
}

#[test]
fn a_difference_is_told_in_a_line() {
    let reference = ledger(ENTRY);
    let told = |core: &[u8]| first_difference(&reference, core).expect("it differs").to_string();
    let changed = |at: usize, to: u8| [&reference[..at], &[to], &reference[at + 1..]].concat();
    assert_eq!(told(&changed(32, 8)), "record 2: reference 17 0 take 7, core 17 0 take 8");
    assert_eq!(told(&changed(29, 4)), "record 2: reference 17 0 take 7, core [11 00 00 00 00 04 00 00 07 00 00 00]");
    assert_eq!(told(&reference[..26]), "record 2: reference 17 0 take 7, core [11 00]");
    assert_eq!(told(&[]), "record 0: reference 7 1 fill 7, core has none");
    let longer = [&reference[..], &reference[..12]].concat();
    assert_eq!(told(&longer), "record 4: reference has none, core 7 1 fill 7");
}
