//! The calls, as the proved library and as the plain implementation make them: behind the same function pointers,
//! so that none is inlined, and in statics, so that tests, benchmark and count have the same compiled code of plain.

use vengloaz::raw;

/// Image, tape, ledger, result.
type Run = fn(&mut [u8], &[u8], &mut [u8], &mut [u8]) -> u64;

/// Image, result.
pub type Look = fn(&[u8], &mut [u8]) -> u64;

/// N, list or tape, output, result.
type Rewrite = fn(u64, &[u8], &mut [u8], &mut [u8]) -> u64;

/// N, seed, count, output, result.
type Load = fn(u64, u64, u64, &mut [u8], &mut [u8]) -> u64;

/// A side of a comparison: each call returns 0 or the refusal's number.
#[derive(Clone, Copy)]
pub struct Calls {
    /// What to call it in a report.
    pub name: &'static str,
    /// Image, event, result.
    pub step: fn(&mut [u8], &[u8], &mut [u8]) -> u64,
    pub run: Run,
    pub stopped: Look,
    pub survey: Look,
    /// N, home, image, result.
    pub fresh: fn(u64, u64, &mut [u8], &mut [u8]) -> u64,
    pub write: Rewrite,
    pub read: Rewrite,
    pub load: Load,
}

/// The proved library.
pub static PROVED: Calls = Calls {
    name: "proved",
    step: raw::ring_step,
    run: raw::ring_run,
    stopped: raw::ring_stopped,
    survey: raw::ring_survey,
    fresh: raw::ring_fresh,
    write: raw::ring_write,
    read: raw::ring_read,
    load: raw::ring_load,
};

/// The plain implementation.
pub static PLAIN: Calls = plain::<0>();

/// The plain implementation, right (0) or with a fault planted.
pub const fn plain<const FAULT: u8>() -> Calls {
    Calls {
        name: "plain",
        step: plain::ring_step::<FAULT>,
        run: plain::ring_run::<FAULT>,
        stopped: plain::ring_stopped::<FAULT>,
        survey: plain::ring_survey::<FAULT>,
        fresh: plain::ring_fresh::<FAULT>,
        write: plain::ring_write::<FAULT>,
        read: plain::ring_read::<FAULT>,
        load: plain::ring_load::<FAULT>,
    }
}
