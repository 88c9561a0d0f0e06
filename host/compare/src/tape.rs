//! Tapes to give to a run, right ones and damaged ones, kept in parts so that they can be shrunk.

/// The bytes of a block.
pub const BLOCK: usize = 512;
/// The event slots of a block.
pub const SLOTS: usize = 63;
/// The most blocks of a tape.
pub const MOST_BLOCKS: usize = 65_536;
/// The most events of a tape.
pub const MOST_EVENTS: usize = SLOTS * MOST_BLOCKS;

/// The 8 bytes of an event.
pub type Event = [u8; 8];

/// The event of this process and code, with this message.
pub fn event(process: usize, code: u8, message: u32) -> Event {
    let [m0, m1, m2, m3] = message.to_le_bytes();
    [process as u8, code, 0, 0, m0, m1, m2, m3]
}

/// What stands in a block as its check.
#[derive(Clone, Copy, PartialEq, Debug)]
pub enum Seal {
    /// The right check.
    Right,
    /// The right check with these bits turned.
    Off(u32),
    /// This number.
    Fixed(u32),
}

/// A block: its bytes, but for the check.
#[derive(Clone, PartialEq, Debug)]
pub struct Block {
    bytes: [u8; BLOCK],
    /// The check.
    pub seal: Seal,
}

impl Block {
    /// The block of this number with these events, at most 63.
    pub fn new(number: u16, events: &[Event]) -> Self {
        let mut block = Block { bytes: [0; BLOCK], seal: Seal::Right };
        block.set_number(number);
        block.set_count(events.len() as u16);
        for (slot, event) in events.iter().enumerate() {
            block.set_slot(slot, *event);
        }
        block
    }

    /// The block's number.
    pub fn number(&self) -> u16 {
        u16::from_le_bytes([self.bytes[0], self.bytes[1]])
    }

    /// Writes the block's number.
    pub fn set_number(&mut self, number: u16) {
        self.bytes[0..2].copy_from_slice(&number.to_le_bytes());
    }

    /// The block's count.
    pub fn count(&self) -> u16 {
        u16::from_le_bytes([self.bytes[2], self.bytes[3]])
    }

    /// Writes the block's count.
    pub fn set_count(&mut self, count: u16) {
        self.bytes[2..4].copy_from_slice(&count.to_le_bytes());
    }

    /// What stands in a slot.
    pub fn slot(&self, slot: usize) -> Event {
        let mut event = [0; 8];
        event.copy_from_slice(&self.bytes[8 + 8 * slot..16 + 8 * slot]);
        event
    }

    /// Writes a slot.
    pub fn set_slot(&mut self, slot: usize, event: Event) {
        self.bytes[8 + 8 * slot..16 + 8 * slot].copy_from_slice(&event);
    }

    /// Empties these slots.
    pub fn empty(&mut self, slots: &[usize]) {
        slots.iter().for_each(|slot| self.set_slot(*slot, [0; 8]));
    }

    /// The right check: two sums over the words of bytes 0 to 3 and 8 to 511.
    pub fn right_check(&self) -> u32 {
        let (mut a, mut b) = (0u32, 0u32);
        for word in self.bytes[..4].chunks_exact(2).chain(self.bytes[8..].chunks_exact(2)) {
            a += u32::from(u16::from_le_bytes([word[0], word[1]]));
            b += a % 65_535;
        }
        a % 65_535 + 65_536 * (b % 65_535)
    }

    /// Keeps the check as it is now, whatever is written to the block from here on.
    pub fn fix_check(&mut self) {
        self.seal = Seal::Fixed(self.check());
    }

    /// The check that stands in the block.
    pub fn check(&self) -> u32 {
        match self.seal {
            Seal::Right => self.right_check(),
            Seal::Off(turned) => self.right_check() ^ turned,
            Seal::Fixed(check) => check,
        }
    }

    /// A byte of the block; those of the check read as 0.
    pub fn byte(&mut self, at: usize) -> &mut u8 {
        &mut self.bytes[at]
    }

    /// The block's 512 bytes.
    pub fn bytes(&self) -> [u8; BLOCK] {
        let mut bytes = self.bytes;
        bytes[4..8].copy_from_slice(&self.check().to_le_bytes());
        bytes
    }

    /// Whether the block is as a writer writes it at this place.
    fn is_written(&self, place: usize, last: bool) -> bool {
        let count = usize::from(self.count());
        usize::from(self.number()) == place
            && self.check() == self.right_check()
            && (count == SLOTS || (last && (1..SLOTS).contains(&count)))
            && (count..SLOTS).all(|slot| self.slot(slot) == [0; 8])
    }
}

/// A tape: blocks, and bytes after the last of them.
#[derive(Clone, PartialEq, Debug, Default)]
pub struct Tape {
    /// The blocks.
    pub blocks: Vec<Block>,
    /// Fewer than 512 further bytes, which make it ragged; none in a right tape.
    pub tail: Vec<u8>,
}

impl Tape {
    /// The tape of these events.
    pub fn of(events: &[Event]) -> Self {
        let numbered = events.chunks(SLOTS).enumerate();
        Tape { blocks: numbered.map(|(number, events)| Block::new(number as u16, events)).collect(), tail: Vec::new() }
    }

    /// The tape that has these bytes.
    pub fn with_bytes(bytes: &[u8]) -> Self {
        let (blocks, tail) = bytes.as_chunks::<BLOCK>();
        let block = |bytes: &[u8; BLOCK]| {
            let mut block = Block::new(0, &[]);
            (0..4).chain(8..BLOCK).for_each(|at| *block.byte(at) = bytes[at]);
            block.seal = Seal::Fixed(u32::from_le_bytes([bytes[4], bytes[5], bytes[6], bytes[7]]));
            block
        };
        Tape { blocks: blocks.iter().map(block).collect(), tail: tail.to_vec() }
    }

    /// The tape's bytes.
    pub fn bytes(&self) -> Vec<u8> {
        let mut bytes = Vec::with_capacity(BLOCK * self.blocks.len() + self.tail.len());
        for block in &self.blocks {
            bytes.extend_from_slice(&block.bytes());
        }
        bytes.extend_from_slice(&self.tail);
        bytes
    }

    /// Whether a writer writes such a tape, possible events or not.
    pub fn is_written(&self) -> bool {
        let blocks = self.blocks.len();
        let each_is = |(place, block): (usize, &Block)| block.is_written(place, place + 1 == blocks);
        self.tail.is_empty() && blocks <= MOST_BLOCKS && self.blocks.iter().enumerate().all(each_is)
    }

    /// Drops a block, if there is one; those after it keep their numbers or get one less.
    pub fn drop_block(&mut self, place: usize, renumbered: bool) {
        if place < self.blocks.len() {
            self.blocks.remove(place);
            let after = self.blocks[place..].iter_mut().filter(|_| renumbered);
            after.for_each(|block| block.set_number(block.number().wrapping_sub(1)));
        }
    }

    /// The slots that the counts call used.
    pub fn event_count(&self) -> usize {
        self.blocks.iter().map(|block| usize::from(block.count()).min(SLOTS)).sum()
    }

    /// What stands in the slots that the counts call used.
    pub fn events(&self) -> Vec<Event> {
        let mut events = Vec::new();
        for block in &self.blocks {
            let used = usize::from(block.count()).min(SLOTS);
            events.extend((0..used).map(|slot| block.slot(slot)));
        }
        events
    }
}
