//! The load: the tape that anyone can make again of a seed (document 02, A.1).

use crate::answer::Refusal;
use crate::tape::{self, Block, MOST_EVENTS, SLOTS};

/// The factor and the modulus of Park and Miller's minimal standard; the modulus is 2 to the power of 31, less 1.
const FACTOR: u64 = 16_807;
const MODULUS: u64 = 2_147_483_647;

/// The codes that a load has events of.
const CODES: u64 = 8;

/// Refusal 11 for a seed from which the generator would not go on: 0, or one that is none of its numbers.
pub fn tested_seed<const FAULT: u8>(seed: u64) -> Result<Generator, Refusal> {
    let most = if FAULT == 16 { MODULUS - 2 } else { MODULUS - 1 };
    if seed == 0 || seed > most {
        return Err(Refusal { number: 11, place: 0 });
    }
    Ok(Generator { last: seed })
}

/// Refusal 6 for a count of more events than a tape has.
pub fn tested_count(count: u64) -> Result<usize, Refusal> {
    if count > MOST_EVENTS as u64 {
        return Err(Refusal { number: 6, place: 0 });
    }
    Ok(count as usize)
}

/// The generator, with the last number that it gave; at first that is the seed.
pub struct Generator {
    last: u64,
}

impl Generator {
    /// The next number. As 2 to the power of 31 leaves 1, the product leaves what the sum of its lowest 31 bits and of
    /// those above them does, and that is below twice the modulus.
    #[inline(always)]
    fn draw(&mut self) -> u64 {
        let product = FACTOR * self.last;
        let sum = (product & MODULUS) + (product >> 31);
        self.last = if sum < MODULUS { sum } else { sum - MODULUS };
        self.last
    }

    /// The next event, of three numbers, as one little-endian word. They fit 32 bits, in which a division is quicker.
    #[inline(always)]
    fn event<const FAULT: u8>(&mut self, size: u32) -> u64 {
        let process = self.draw() as u32 % size;
        let code = self.draw() % CODES;
        let third = if FAULT == 15 && code != 0 { 0 } else { self.draw() };
        let message = if code == 0 { third } else { 0 };
        u64::from(process) | code << 8 | message << 32
    }
}

/// Writes the tape of so many events for N, each block as its events are drawn.
pub fn write<const FAULT: u8>(size: usize, mut generator: Generator, count: usize, output: &mut [Block]) {
    let mut left = count;
    for (number, block) in output.iter_mut().enumerate() {
        let used = left.min(SLOTS);
        left -= used;
        let (slots, _) = block[8..].as_chunks_mut::<8>();
        for slot in &mut slots[..used] {
            *slot = generator.event::<FAULT>(size as u32).to_le_bytes();
        }
        tape::close(block, number, used);
    }
}
