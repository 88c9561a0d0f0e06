//! Refusals and the result slice ("Where a call is turned down", and the host's convention in "The
//! tape").

/// Why a call is turned down: the number of the table's line and the place.
#[derive(Clone, Copy)]
pub struct Refusal {
    pub number: u64,
    pub place: u64,
}

/// Refusal 10.
pub const OUTPUT_TOO_SHORT: Refusal = Refusal { number: 10, place: 0 };

/// The bytes that a result slice needs at least, and that an answer fills.
pub const LEAST_RESULT: usize = 80;

/// Fills the result with the words of the answer, or with the refusal's place, and zeros behind them,
/// and gives 0 or the refusal number. A result that is too short stays untouched.
#[inline(always)]
pub fn answer<const FAULT: u8, const WORDS: usize>(result: &mut [u8], done: Result<[u64; WORDS], Refusal>) -> u64 {
    let mut words = [0; LEAST_RESULT / 8];
    let (number, told) = match done {
        Ok(done) => {
            words[..WORDS].copy_from_slice(&done);
            (0, WORDS)
        }
        Err(refusal) => {
            words[0] = refusal.place;
            (refusal.number, 1)
        }
    };
    if let Some(result) = result.first_chunk_mut::<LEAST_RESULT>() {
        let filled = if FAULT == 10 { told.max(9) } else { words.len() };
        for (slot, word) in result.chunks_exact_mut(8).zip(words).take(filled) {
            slot.copy_from_slice(&word.to_le_bytes());
        }
    }
    number
}
