//! Events and refusals as text, and events from text and bytes.

use vengloaz::{Event, Refusal};

#[test]
fn events_have_their_bytes() {
    assert_eq!(Event::put(3, 0x0403_0201).to_bytes(), [3, 0, 0, 0, 1, 2, 3, 4]);
    assert_eq!(Event::get(5).to_bytes(), [5, 1, 0, 0, 0, 0, 0, 0]);
    assert_eq!(Event::new(63, 7).to_bytes(), [63, 7, 0, 0, 0, 0, 0, 0]);
    let all = [3, 200, 0, 0, 1, 2, 3, 4];
    assert_eq!(Event::from_bytes(all), Some(Event { process: 3, code: 200, message: 0x0403_0201 }));
    assert_eq!(Event::from_bytes(all).map(Event::to_bytes), Some(all));
    assert_eq!(Event::from_bytes([3, 0, 1, 0, 0, 0, 0, 0]), None);
    assert_eq!(Event::from_bytes([3, 0, 0, 255, 0, 0, 0, 0]), None);
}

/// Every process and code of the greatest ring, with messages where they have their place.
#[test]
fn events_are_read_from_their_text() {
    for process in 0..64 {
        for code in 0..8 {
            for message in if code == 0 { vec![0, 1, 7, 1_000, u32::MAX] } else { vec![0] } {
                let event = Event { process, code, message };
                assert_eq!(event.to_string().parse(), Ok(event));
            }
        }
    }
    assert_eq!(Event::put(3, 0).to_string(), "3.0(0)");
    assert_eq!("03.007".parse(), Ok(Event::new(3, 7)));
    assert_eq!("255.255".parse(), Ok(Event::new(255, 255)));
    // No ring has such an event; its text shows all of it, and isn't read.
    assert_eq!(Event { process: 3, code: 5, message: 1 }.to_string(), "3.5(1)");
}

#[test]
fn other_text_is_no_event() {
    let complaint = |word: &str| word.parse::<Event>().expect_err(word).to_string();
    let other = [
        "",
        " ",
        "x",
        "1",
        "1.",
        ".3",
        "1.3.3",
        "1.3,",
        " 1.3",
        "1.3 ",
        "1.-3",
        "+1.3",
        "1.+3",
        "1.0(+7)",
        "1.0(7",
        "1.0(7)1.3",
        "1.0()",
        "1.0(-1)",
        "(7)",
        "1.0(7))",
        "1.0((7)",
        "1.٣",
        "0x1.3",
    ];
    for word in other {
        assert_eq!(complaint(word), format!("{word} is no event like 1.3 or 1.0(7)"));
    }
    assert_eq!(complaint("256.3"), "the process of 256.3 is above 255");
    assert_eq!(complaint("99999999999999999999.3"), "the process of 99999999999999999999.3 is above 255");
    assert_eq!(complaint("1.256"), "the code of 1.256 is above 255");
    assert_eq!(complaint("1.0(4294967296)"), "the message of 1.0(4294967296) is above 4294967295");
    assert_eq!(complaint("1.0"), "1.0 has no message: code 0 is written like 1.0(7)");
    assert_eq!(complaint("1.3(7)"), "1.3(7) has a message, which only code 0 has");
    assert_eq!(complaint("1.3(0)"), "1.3(0) has a message, which only code 0 has");
}

#[test]
fn every_refusal_says_what_to_look_at() {
    let due = [
        "refused 1 at 0: N is not 2 to 64",
        "refused 2 at 0: home is not below N",
        "refused 3 at 0: the image has under 16 bytes, or under 16 + 8N for its byte 0, N",
        "refused 4 at 0: the image is not sound: what wrote to it beside these calls?",
        "refused 5 at 70: event 70 is none of this ring: it has 8 bytes, a process below N, a code up to 7, zeros in \
         bytes 2 and 3, and a message only with code 0",
        "refused 6 at 0: the length is wrong: a tape has up to 65536 whole blocks of 512 bytes, a list or load up to \
         4128768 events of 8 bytes, and ringrun takes up to 64 blocks",
        "refused 7 at 70: block 70 came damaged: its check isn't that of its bytes",
        "refused 8 at 70: block 70 has another number in bytes 0 and 1, or in bytes 2 and 3 a count that is not 63 (in \
         the last block 1 to 63)",
        "refused 9 at 70: block 70 has bytes other than 0 behind its last event",
        "refused 10 at 0: the ledger, output or result slice is too short: a record has 12 bytes, a result 80",
        "refused 11 at 0: the seed is not 1 to 2147483646",
    ];
    for (number, due) in (1..).zip(due) {
        let refusal = Refusal::from_number(number, 70).expect("there is one of this number");
        let error: Box<dyn std::error::Error> = Box::new(refusal);
        assert_eq!(error.to_string(), due);
    }
}
