//! The lists of requests that cross the envelope on a link, each the shortest of its kind from the
//! fresh ring with home 0: one for each kind, one for each way to begin, and the further kinds; then
//! the lists after which such a request keeps the envelope going round, and those that lead to the
//! fresh ring with another home. An exhaustive search on a model of its own found them, with what they
//! end in.
//!
//! There are 40 lists. 33 are those of the 52 crossings, of which several have the same list, and each
//! is a sample of the name `crossing-..`; 4 are samples of other names (`entry-10-..`, `mirror-..`);
//! and the 3 to other homes are no sample, since ringrun prints no image.

/// A status, as the header has it and as requests are numbered: full is bit 0 of two bits, empty
/// bit 1.
#[derive(Clone, Copy, PartialEq)]
pub struct Status {
    pub header: u8,
    pub bit: u8,
}

pub const FULL: Status = Status { header: 1, bit: 0 };
pub const EMPTY: Status = Status { header: 0, bit: 1 };

/// What is known of a crossing beside its kind.
#[derive(Clone, Copy, PartialEq)]
pub enum Way {
    /// No list of its kind is shorter. It ends in this state, where all messages are 0: the envelope, then each
    /// process of which something is set.
    Shortest(&'static str),
    /// It begins as the envelope leaves against a waiting request.
    Leaves,
    /// It begins as the request is asked while the envelope is under way.
    Asks,
    /// The asker's bit is already off.
    Old,
    /// The asker itself waits for the status it asked for, or doesn't.
    OwnWish,
    NotOwnWish,
    /// Both requests cross.
    Both,
}

/// A request crosses the envelope at the end of a list of events `process.code`.
pub struct Crossing {
    pub n: u64,
    pub request: Status,
    pub envelope: Status,
    pub way: Way,
    pub list: &'static str,
}

pub const CROSSINGS: [Crossing; 52] = [
    Crossing {
        n: 2,
        request: FULL,
        envelope: EMPTY,
        way: Way::Shortest(
            "N 2, empty, markers 2, counts 0 0, message 0; \
            0: stage 7, asked full, link full; \
            1: stage 2, arriving, right asked full, asked full, asked empty",
        ),
        list: "0.1 1.0 1.3 1.7 0.6 0.7 0.3 0.7 1.5 1.7",
    },
    Crossing {
        n: 2,
        request: EMPTY,
        envelope: FULL,
        way: Way::Shortest(
            "N 2, full, markers 1, counts 0 0, message 0; \
            0: stage 2, asked empty, link empty; \
            1: stage 7, arriving, right asked empty, asked full, asked empty",
        ),
        list: "0.0 0.3 0.7 0.2 0.3 1.1 1.3 1.7 0.5 0.7 0.0 0.3 0.7 1.6 1.7",
    },
    Crossing {
        n: 2,
        request: FULL,
        envelope: FULL,
        way: Way::Shortest(
            "N 2, full, markers 0, counts 1 0, message 0; \
            0: stage 7, arriving, right asked empty, asked full, asked empty, marked full; \
            1: stage 2, asked empty, link full, link empty",
        ),
        list: "0.1 0.3 1.0 1.3 1.7 0.6 0.7 1.4 1.7 1.2 1.3 1.7 1.0 1.3 1.7 0.6 0.7",
    },
    Crossing {
        n: 2,
        request: EMPTY,
        envelope: EMPTY,
        way: Way::Shortest(
            "N 2, empty, markers 2, counts 0 0, message 0; \
            0: stage 2, arriving, asked empty; \
            1: stage 0, link empty",
        ),
        list: "0.0 0.3 0.7 0.2 0.3 1.1 1.3 1.7 0.5 0.7 0.0 0.3 0.7 1.6 1.7 0.6 1.4 1.7 1.2 1.3 1.7 \
         0.4 0.7 0.2 0.3 1.1 1.3 1.7 0.5 0.7 0.0 0.3 0.7 1.4 1.7 1.2 1.3 1.7",
    },
    Crossing {
        n: 3,
        request: FULL,
        envelope: EMPTY,
        way: Way::Shortest(
            "N 3, empty, markers 2, counts 0 0, message 0; \
            0: stage 0, link full; \
            1: stage 2, arriving, right asked full, asked full, asked empty; \
            2: stage 7, asked full",
        ),
        list: "1.0 1.3 2.1 2.3 2.7 1.5 1.7 0.6 0.7",
    },
    Crossing {
        n: 3,
        request: EMPTY,
        envelope: FULL,
        way: Way::Shortest(
            "N 3, full, markers 1, counts 0 0, message 0; \
            0: stage 0, link empty; \
            1: stage 2, arriving, right asked full, asked full, asked empty; \
            2: stage 7, asked full",
        ),
        list: "0.0 0.3 0.7 0.2 0.3 1.0 1.3 2.1 2.3 2.7 1.5 1.7 0.5 0.7",
    },
    Crossing {
        n: 3,
        request: FULL,
        envelope: FULL,
        way: Way::Shortest(
            "N 3, full, markers 0, counts 1 0, message 0; \
            0: stage 7, marked full; \
            1: stage 0, link full; \
            2: stage 7, arriving, asked full",
        ),
        list: "0.1 0.3 1.0 1.3 1.7 0.6 0.7 1.4 1.7 1.2 1.3 1.7 2.1 2.3 2.7",
    },
    Crossing {
        n: 3,
        request: EMPTY,
        envelope: EMPTY,
        way: Way::Shortest(
            "N 3, empty, markers 0, counts 0 1, message 0; \
            0: stage 0, arriving, right asked empty, asked empty; \
            1: stage 2, marked empty; \
            2: stage 0, link empty",
        ),
        list: "0.0 0.3 0.7 0.2 0.3 1.0 1.3 2.1 2.3 2.7 1.5 1.7 0.5 0.7 0.6 0.7 1.4 1.7 2.4 2.7 2.2 \
         2.3 2.7",
    },
    Crossing {
        n: 2,
        request: FULL,
        envelope: EMPTY,
        way: Way::Leaves,
        list: "0.1 0.3 1.0 1.3 1.7 0.6 0.7 1.4 1.7 1.2 1.3 1.7 1.0 1.3 1.7 0.6 0.7 0.4 0.7 0.2 0.3 \
         1.5 1.7 0.7",
    },
    Crossing { n: 2, request: FULL, envelope: EMPTY, way: Way::Asks, list: "0.1 1.0 1.3 1.7 0.6 0.7 0.3 0.7 1.5 1.7" },
    Crossing {
        n: 2,
        request: EMPTY,
        envelope: FULL,
        way: Way::Leaves,
        list: "0.1 0.3 1.0 1.3 1.7 0.6 0.7 1.4 1.7 1.2 1.3 1.7 1.0 1.3 1.7 0.6 0.7 0.4 0.7 0.2 0.3 \
         0.7 1.4 1.5 1.7 1.2 1.3 1.7",
    },
    Crossing {
        n: 2,
        request: EMPTY,
        envelope: FULL,
        way: Way::Asks,
        list: "0.0 0.3 0.7 0.2 0.3 1.1 1.3 1.7 0.5 0.7 0.0 0.3 0.7 1.6 1.7",
    },
    Crossing {
        n: 2,
        request: FULL,
        envelope: FULL,
        way: Way::Leaves,
        list: "0.1 1.0 1.3 1.7 0.6 0.7 0.3 0.7 1.5 1.7 0.5 1.4 1.7 1.2 1.3 1.7 0.4 0.7 0.2 0.3 0.7 \
         0.0 0.3 0.7 0.2 0.3 1.1 1.3 1.7 0.7",
    },
    Crossing {
        n: 2,
        request: FULL,
        envelope: FULL,
        way: Way::Asks,
        list: "0.1 0.3 1.0 1.3 1.7 0.6 0.7 1.4 1.7 1.2 1.3 1.7 1.0 1.3 1.7 0.6 0.7",
    },
    Crossing {
        n: 2,
        request: EMPTY,
        envelope: EMPTY,
        way: Way::Leaves,
        list: "0.0 0.3 0.7 0.2 0.3 1.1 1.3 1.7 0.5 0.7 0.0 0.3 0.7 1.6 1.7 0.6 1.4 1.7 1.2 1.3 1.7 \
         0.4 0.7 0.2 0.3 1.1 1.3 1.7 0.5 0.7 0.0 0.3 0.7 1.4 1.7 1.2 1.3 1.7",
    },
    Crossing {
        n: 2,
        request: EMPTY,
        envelope: EMPTY,
        way: Way::Asks,
        list: "0.0 0.3 0.7 0.2 0.3 1.1 1.3 1.7 0.5 0.7 0.0 0.3 0.7 1.6 1.7 0.6 1.4 1.7 1.2 1.3 1.7 \
         0.4 0.7 0.2 0.3 1.1 1.3 1.7 0.5 0.7 0.0 0.3 1.4 1.7 1.2 1.3 1.7 0.7",
    },
    Crossing { n: 3, request: FULL, envelope: EMPTY, way: Way::Leaves, list: "1.0 1.3 2.1 2.3 2.7 1.5 1.7 0.6 0.7" },
    Crossing { n: 3, request: FULL, envelope: EMPTY, way: Way::Asks, list: "1.0 1.3 1.7 0.6 0.7 2.1 2.3 2.7 1.5 1.7" },
    Crossing {
        n: 3,
        request: EMPTY,
        envelope: FULL,
        way: Way::Leaves,
        list: "0.0 0.3 0.7 0.2 0.3 1.0 1.3 2.1 2.3 2.7 1.5 1.7 0.5 0.7",
    },
    Crossing {
        n: 3,
        request: EMPTY,
        envelope: FULL,
        way: Way::Asks,
        list: "0.0 0.3 0.7 0.2 0.3 1.0 2.1 2.3 2.7 1.5 1.7 0.5 0.7 1.3 1.7",
    },
    Crossing {
        n: 3,
        request: FULL,
        envelope: FULL,
        way: Way::Leaves,
        list: "0.1 0.3 1.0 1.3 1.7 0.6 0.7 1.4 1.7 1.2 1.3 2.1 2.3 2.7 1.7",
    },
    Crossing {
        n: 3,
        request: FULL,
        envelope: FULL,
        way: Way::Asks,
        list: "0.1 0.3 1.0 1.3 1.7 0.6 0.7 1.4 1.7 1.2 1.3 1.7 2.1 2.3 2.7",
    },
    Crossing {
        n: 3,
        request: EMPTY,
        envelope: EMPTY,
        way: Way::Leaves,
        list: "0.0 0.3 0.7 0.2 0.3 1.0 1.3 2.1 2.3 2.7 1.5 1.7 0.5 0.7 0.6 0.7 1.4 1.7 2.4 2.7 2.2 \
         2.3 2.7",
    },
    Crossing {
        n: 3,
        request: EMPTY,
        envelope: EMPTY,
        way: Way::Asks,
        list: "0.0 0.3 0.7 0.2 0.3 1.0 1.3 2.1 2.3 2.7 1.5 1.7 0.5 0.7 0.6 1.4 1.7 2.4 2.7 2.2 2.3 \
         2.7 0.7",
    },
    Crossing {
        n: 2,
        request: EMPTY,
        envelope: EMPTY,
        way: Way::Old,
        list: "0.1 0.3 1.0 1.3 1.7 0.6 0.7 1.4 1.7 1.2 1.3 1.7 1.0 1.3 1.7 0.6 0.7 0.4 0.7 0.2 0.3 \
         0.7 0.0 0.3 1.4 1.5 1.7 1.2 1.3 1.7 0.4 0.7 1.1 1.3 1.4 1.7 1.2 1.3 1.7",
    },
    Crossing {
        n: 2,
        request: EMPTY,
        envelope: FULL,
        way: Way::Old,
        list: "0.1 0.3 1.0 1.3 1.7 0.6 0.7 1.4 1.7 1.2 1.3 1.7 1.0 1.3 1.7 0.6 0.7 0.4 0.7 0.2 0.3 \
         0.7 1.4 1.5 1.7 1.2 1.3 1.7",
    },
    Crossing {
        n: 2,
        request: FULL,
        envelope: EMPTY,
        way: Way::Old,
        list: "0.1 1.0 1.3 1.7 0.6 0.7 0.3 0.7 1.5 1.7 1.4 1.7 1.2 1.3 1.7 0.4 0.7 0.2 0.3 1.0 1.3 \
         1.7 0.6 0.7",
    },
    Crossing {
        n: 2,
        request: FULL,
        envelope: FULL,
        way: Way::Old,
        list: "0.1 0.3 1.0 1.3 1.7 0.6 0.7 1.4 1.7 1.2 1.3 1.7 1.0 1.3 1.7 0.6 0.7 0.4 0.7 0.2 0.3 \
         0.7 1.5 1.7 1.4 1.7 1.2 1.3 1.7 0.4 0.7",
    },
    Crossing {
        n: 2,
        request: EMPTY,
        envelope: EMPTY,
        way: Way::OwnWish,
        list: "0.0 0.3 0.7 0.2 0.3 1.1 1.3 1.7 0.5 0.7 0.0 0.3 0.7 1.6 1.7 0.6 1.4 1.7 1.2 1.3 1.7 \
         0.4 0.7 0.2 0.3 1.1 1.3 1.7 0.5 0.7 0.0 0.3 0.7 1.4 1.7 1.2 1.3 1.7",
    },
    Crossing {
        n: 2,
        request: EMPTY,
        envelope: FULL,
        way: Way::OwnWish,
        list: "0.1 0.3 1.0 1.3 1.7 0.6 0.7 1.4 1.7 1.2 1.3 1.7 1.0 1.3 1.7 0.6 0.7 0.4 0.7 0.2 0.3 \
         0.7 0.0 0.3 1.4 1.5 1.7 1.2 1.3 1.7",
    },
    Crossing {
        n: 2,
        request: FULL,
        envelope: EMPTY,
        way: Way::OwnWish,
        list: "0.0 0.3 0.7 0.2 0.3 1.1 1.3 1.7 0.5 0.7 0.0 0.3 0.7 1.6 1.7 0.6 1.4 1.7 1.2 1.3 1.7 \
         0.4 0.7 0.2 0.3 1.1 1.3 1.7 0.5 0.7 0.1 0.3 0.7 1.4 1.7 1.2 1.3 1.7",
    },
    Crossing {
        n: 2,
        request: FULL,
        envelope: FULL,
        way: Way::OwnWish,
        list: "0.1 0.3 1.0 1.3 1.7 0.6 0.7 1.4 1.7 1.2 1.3 1.7 1.0 1.3 1.7 0.6 0.7",
    },
    Crossing {
        n: 2,
        request: EMPTY,
        envelope: EMPTY,
        way: Way::NotOwnWish,
        list: "0.0 0.3 0.7 0.2 0.3 1.1 1.3 1.7 0.5 0.7 0.0 0.3 0.7 1.6 1.7 0.6 1.4 1.7 1.2 1.3 1.7 \
         0.4 0.7 0.2 0.3 1.1 1.3 1.7 0.5 0.7 1.4 1.7 1.2 1.3 1.7 1.0 1.3 1.7 0.6 0.7",
    },
    Crossing {
        n: 2,
        request: EMPTY,
        envelope: FULL,
        way: Way::NotOwnWish,
        list: "0.0 0.3 0.7 0.2 0.3 1.1 1.3 1.7 0.5 0.7 0.0 0.3 0.7 1.6 1.7",
    },
    Crossing {
        n: 2,
        request: FULL,
        envelope: EMPTY,
        way: Way::NotOwnWish,
        list: "0.1 1.0 1.3 1.7 0.6 0.7 0.3 0.7 1.5 1.7",
    },
    Crossing {
        n: 2,
        request: FULL,
        envelope: FULL,
        way: Way::NotOwnWish,
        list: "0.1 0.3 1.0 1.3 1.7 0.6 0.7 1.4 1.7 1.2 1.3 1.7 1.0 1.3 1.7 0.6 0.7 0.4 0.7 0.2 0.3 \
         0.7 1.5 1.7 0.5 0.7 1.4 1.7 1.2 1.3 1.7",
    },
    Crossing {
        n: 2,
        request: FULL,
        envelope: EMPTY,
        way: Way::Both,
        list: "0.0 0.3 0.7 0.2 0.3 1.1 1.3 1.7 0.5 0.7 0.0 0.3 0.7 1.6 1.7 0.6 1.4 1.7 1.2 1.3 1.7 \
         1.1 1.3 1.7 0.5 0.7 0.4 0.7 0.2 0.3 0.7 0.0 0.3 0.7 1.4 1.7 1.2 1.3 1.7",
    },
    Crossing {
        n: 2,
        request: FULL,
        envelope: FULL,
        way: Way::Both,
        list: "0.1 0.3 1.0 1.3 1.7 0.6 0.7 1.4 1.7 1.2 1.3 1.7 1.0 1.3 1.7 0.6 0.7",
    },
    Crossing {
        n: 3,
        request: EMPTY,
        envelope: EMPTY,
        way: Way::Old,
        list: "0.0 0.3 0.7 0.2 0.3 1.0 1.3 2.1 2.3 2.7 1.5 1.7 0.5 0.7 1.4 1.7 2.4 2.7 2.2 2.3 2.7 \
         0.4 0.7",
    },
    Crossing {
        n: 3,
        request: EMPTY,
        envelope: FULL,
        way: Way::Old,
        list: "0.0 0.3 0.7 0.2 0.3 1.1 1.3 1.7 0.5 0.7 0.0 0.3 0.7 2.1 2.3 2.6 2.7 1.6 1.7 1.4 1.7 \
         1.2 1.3 1.7 2.4 2.7 0.4 0.7 0.2 0.3 0.7",
    },
    Crossing {
        n: 3,
        request: FULL,
        envelope: EMPTY,
        way: Way::Old,
        list: "0.1 1.0 1.3 1.7 0.6 0.7 0.3 0.7 2.0 2.3 2.5 2.7 1.5 1.7 1.4 1.7 1.2 1.3 1.7 2.4 2.7 \
         0.4 0.7 0.2 0.3 0.7",
    },
    Crossing {
        n: 3,
        request: FULL,
        envelope: FULL,
        way: Way::Old,
        list: "1.1 1.3 2.0 2.3 2.7 1.6 1.7 0.6 0.7 1.4 1.7 2.4 2.7 2.2 2.3 2.7 0.4 0.7",
    },
    Crossing {
        n: 3,
        request: EMPTY,
        envelope: EMPTY,
        way: Way::OwnWish,
        list: "0.0 0.3 0.7 0.2 0.3 1.0 1.3 2.1 2.3 2.7 1.5 1.7 0.5 0.7 1.4 1.7 2.4 2.7 2.2 2.3 2.7 \
         0.4 0.7",
    },
    Crossing {
        n: 3,
        request: EMPTY,
        envelope: FULL,
        way: Way::OwnWish,
        list: "0.0 0.3 0.7 0.2 0.3 1.0 1.3 2.1 2.3 2.7 1.5 1.7 0.5 0.7",
    },
    Crossing { n: 3, request: FULL, envelope: EMPTY, way: Way::OwnWish, list: "1.1 1.3 2.0 2.3 2.7 1.6 1.7 0.6 0.7" },
    Crossing {
        n: 3,
        request: FULL,
        envelope: FULL,
        way: Way::OwnWish,
        list: "0.1 0.3 1.0 1.3 1.7 0.6 0.7 1.4 1.7 1.2 1.3 1.7 2.1 2.3 2.7",
    },
    Crossing {
        n: 3,
        request: EMPTY,
        envelope: EMPTY,
        way: Way::NotOwnWish,
        list: "0.0 0.3 0.7 0.2 0.3 1.0 1.3 2.1 2.3 2.7 1.5 1.7 0.5 0.7 0.6 0.7 1.4 1.7 2.4 2.7 2.2 \
         2.3 2.7",
    },
    Crossing {
        n: 3,
        request: EMPTY,
        envelope: FULL,
        way: Way::NotOwnWish,
        list: "0.0 0.3 0.7 0.2 0.3 1.1 1.3 2.0 2.3 2.7 1.6 1.7 0.5 0.7",
    },
    Crossing {
        n: 3,
        request: FULL,
        envelope: EMPTY,
        way: Way::NotOwnWish,
        list: "1.0 1.3 2.1 2.3 2.7 1.5 1.7 0.6 0.7",
    },
    Crossing {
        n: 3,
        request: FULL,
        envelope: FULL,
        way: Way::NotOwnWish,
        list: "1.1 1.3 2.0 2.3 2.7 1.6 1.7 0.6 0.7 0.5 0.7 1.4 1.7 2.4 2.7 2.2 2.3 2.7",
    },
    Crossing {
        n: 3,
        request: FULL,
        envelope: EMPTY,
        way: Way::Both,
        list: "0.0 0.3 0.7 0.2 0.3 1.0 1.3 2.1 2.3 2.7 1.5 1.7 0.5 0.7 0.1 0.3 0.6 0.7 1.4 1.7 2.4 \
         2.7 2.2 2.3 2.7",
    },
    Crossing {
        n: 3,
        request: FULL,
        envelope: FULL,
        way: Way::Both,
        list: "0.1 0.3 1.0 1.3 1.7 0.6 0.7 1.4 1.7 1.2 1.3 1.7 1.0 1.3 1.7 0.6 0.7 2.4 2.7",
    },
];

/// A list of events from the fresh ring with home 0, and the state at its end.
pub struct Ended {
    pub n: u64,
    pub list: &'static str,
    pub state: &'static str,
}

/// Entry 10 of document 01, for N: the full marker stays set with no receiver, a put has ended alone,
/// and the full envelope goes round.
pub const ENTRY_10: [Ended; 2] = [
    Ended {
        n: 2,
        list: "0.1 1.0 1.3 1.7 0.6 0.7 0.3 0.7 1.5 1.7 0.5 1.4 1.7 1.2 1.3 1.7 0.4 0.7 0.2 0.3 0.7 0.0 \
        0.3 0.7 0.2 0.3 0.7",
        state: "N 2, full, markers 1, counts 0 0, message 0; \
        1: stage 0, arriving",
    },
    Ended {
        n: 3,
        list: "1.0 1.3 2.1 2.3 2.7 1.5 1.7 0.6 0.7 0.5 0.7 1.4 1.7 1.2 1.3 1.7 2.4 2.5 2.7 2.2 2.3 2.7 \
        2.0 2.3 2.7 2.2 2.3 2.7",
        state: "N 3, full, markers 1, counts 0 0, message 0; \
        0: stage 0, arriving, right asked full, asked full",
    },
];

/// Its mirror image, for N: the empty marker stays set with no sender, everybody is idle, and the
/// empty envelope goes round.
pub const MIRROR: [Ended; 2] = [
    Ended {
        n: 2,
        list: "0.0 0.3 0.7 0.2 0.3 1.1 1.3 1.7 0.5 0.7 0.0 0.3 0.7 1.6 1.7 0.6 1.4 1.7 1.2 1.3 1.7 0.4 \
        0.7 0.2 0.3 1.1 1.3 1.7 0.5 0.7 1.4 1.7 1.2 1.3 1.7",
        state: "N 2, empty, markers 2, counts 0 0, message 0; \
        0: stage 0, arriving",
    },
    Ended {
        n: 3,
        list: "0.0 0.3 0.7 0.2 0.3 1.1 1.3 2.0 2.3 2.7 1.6 1.7 0.5 0.7 0.1 0.3 0.6 0.7 1.4 1.7 1.2 1.3 \
        1.7 2.4 2.5 2.7 2.2 2.3 2.7 0.4 0.7 0.2 0.3 0.7",
        state: "N 3, empty, markers 2, counts 0 0, message 0; \
        1: stage 0, arriving; \
        2: stage 0, link empty",
    },
];

/// From home 0 to the fresh ring with another home.
pub const OTHER_HOMES: [Ended; 3] = [
    Ended {
        n: 2,
        list: "0.0 0.3 0.7 0.2 0.3 1.1 1.3 1.7 0.5 0.7 0.0 0.3 0.7 1.4 1.7 1.2 1.3 1.7 1.1 1.3 1.6 1.7 \
        0.4 0.7 0.2 0.3 0.7 1.4 1.7 1.2 1.3 1.7",
        state: "N 2, empty, markers 0, counts 0 0, message 0; \
        1: stage 0, have",
    },
    Ended {
        n: 3,
        list: "1.1 2.0 2.3 2.7 1.6 1.7 0.6 0.7 1.3 1.4 1.7 2.4 2.7 2.2 2.3 2.7 0.4 0.7 1.4 1.7 1.2 1.3 \
        1.7",
        state: "N 3, empty, markers 0, counts 0 0, message 0; \
        1: stage 0, have",
    },
    Ended {
        n: 3,
        list: "0.0 0.3 0.7 0.2 0.3 1.1 1.3 1.7 0.5 0.7 0.0 0.3 0.7 1.4 1.7 1.2 1.3 2.1 2.6 2.7 1.6 1.7 \
        2.3 2.4 2.7 0.4 0.7 0.2 0.3 0.7 1.4 1.7 2.4 2.7 2.2 2.3 2.7",
        state: "N 3, empty, markers 0, counts 0 0, message 0; \
        2: stage 0, have",
    },
];
