//! Faults put into an input, a byte or an event at a time.

use crate::play::Play;

/// An input that is to be refused.
#[derive(Clone)]
pub struct Damage(pub Vec<u8>);

/// An input of 3 processes, home 1, with 3 blocks: 63, 63 and 1 events, and nothing wrong.
pub fn three_blocks() -> Damage {
    Damage(Play::fresh(3, 1).guided(127, 3).input())
}

/// An input of 2 processes, home 0, with one block of one event, and nothing wrong.
pub fn one_event() -> Damage {
    Damage(Play::fresh(2, 0).then("1.0").input())
}

/// An input of 64 processes, home 63, with one block of 10 events, and nothing wrong.
pub fn greatest_ring() -> Damage {
    Damage(Play::fresh(64, 63).guided(10, 1).input())
}

impl Damage {
    /// Another N, another home.
    pub fn n(mut self, n: u8) -> Damage {
        self.0[0] = n;
        self
    }

    pub fn home(mut self, home: u8) -> Damage {
        self.0[1] = home;
        self
    }

    /// So many bytes of the tape; bytes of 0 come after those that are there.
    pub fn length(mut self, bytes: usize) -> Damage {
        self.0.resize(2 + bytes, 0);
        self
    }

    /// A byte of a block set, its check left as it was.
    pub fn torn(mut self, block: usize, at: usize, byte: u8) -> Damage {
        let old = &mut self.block(block)[at];
        assert_ne!(*old, byte, "a byte that stays is no damage");
        *old = byte;
        self
    }

    /// A byte of a block set, and its check made right.
    pub fn sealed(self, block: usize, at: usize, byte: u8) -> Damage {
        let mut damage = self.torn(block, at, byte);
        guide::seal(damage.block(block));
        damage
    }

    /// The event of this number set, and its block's check made right.
    pub fn event(mut self, number: usize, event: [u8; 8]) -> Damage {
        let block = self.block(number / 63);
        block[8 + 8 * (number % 63)..][..8].copy_from_slice(&event);
        guide::seal(block);
        self
    }

    /// Two events of a block exchanged, its check left as it was.
    pub fn exchanged(mut self, block: usize, one: usize, other: usize) -> Damage {
        let (slots, _) = self.block(block)[8..].as_chunks_mut::<8>();
        assert_ne!(slots[one], slots[other], "equal ones exchanged are no damage");
        slots.swap(one, other);
        self
    }

    /// The bytes of a block.
    pub fn block(&mut self, block: usize) -> &mut [u8] {
        &mut self.0[2 + 512 * block..][..512]
    }
}
