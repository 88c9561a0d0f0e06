//! The image: its bits, its parts, the fresh ring and stopped ("The image", "Stopped").
//!
//! The header's first 8 bytes and each process record are handled as one little-endian 64-bit word.

use crate::answer::Refusal;
use crate::walk::walk;

pub const LEAST_SIZE: u64 = 2;
pub const MOST_SIZE: u64 = 64;

/// Bits of the header's first word: byte 0 is N, then status, markers, and the counts of the marked
/// processes.
pub const FULL: u64 = 1 << 8;
pub const FULL_WANTED: u64 = 1 << 16;
pub const EMPTY_WANTED: u64 = 1 << 17;
pub const COUNT_FULL: u64 = 0xFF << 24;
pub const COUNT_EMPTY: u64 = 0xFF << 32;

/// Bits of a process record.
pub const STAGE: u64 = 0xFF;
pub const HAVE: u64 = 1 << 8;
pub const ARRIVING: u64 = 1 << 9;
pub const NEWS: u64 = 1 << 10;
pub const RIGHT_ASKED_FULL: u64 = 1 << 16;
pub const RIGHT_ASKED_EMPTY: u64 = 1 << 17;
pub const ASKED_FULL: u64 = 1 << 18;
pub const ASKED_EMPTY: u64 = 1 << 19;
pub const MARKED_FULL: u64 = 1 << 20;
pub const MARKED_EMPTY: u64 = 1 << 21;
pub const LINK_FULL: u64 = 1 << 22;
pub const LINK_EMPTY: u64 = 1 << 23;
pub const NOTE: u64 = 0xFFFF_FFFF << 32;

/// The header's bytes that are not always 0: the envelope, and N with it.
#[derive(Clone, Copy)]
pub struct Envelope {
    pub word: u64,
    pub message: u64,
}

impl Envelope {
    fn load(header: &[u8; 16]) -> Envelope {
        let [word, message] = halves(header);
        Envelope { word, message }
    }

    /// Writes the envelope back into its header.
    #[inline]
    pub fn store(&self, header: &mut [u8; 16]) {
        header[..8].copy_from_slice(&self.word.to_le_bytes());
        header[8..].copy_from_slice(&self.message.to_le_bytes());
    }

    /// N.
    pub fn size(&self) -> usize {
        (self.word & 0xFF) as usize
    }

    /// 0 empty, 1 full.
    pub fn status(&self) -> u64 {
        self.word >> 8 & 1
    }
}

fn halves(header: &[u8; 16]) -> [u64; 2] {
    let both = u128::from_le_bytes(*header);
    [both as u64, (both >> 64) as u64]
}

/// A sound image, taken apart: the envelope beside the header it came from, and the process
/// records.
pub struct Ring<'a> {
    pub envelope: Envelope,
    pub header: &'a mut [u8; 16],
    pub records: &'a mut [[u8; 8]],
}

impl<'a> Ring<'a> {
    /// Takes a sound image apart, or refuses it.
    pub fn sound<const FAULT: u8>(image: &'a mut [u8]) -> Result<Ring<'a>, Refusal> {
        let (envelope, _) = sound::<FAULT>(image)?;
        let (header, rest) = image.split_first_chunk_mut::<16>().ok_or(TOO_SHORT)?;
        let (records, _) = rest.as_chunks_mut::<8>();
        let records = records.get_mut(..envelope.size()).ok_or(TOO_SHORT)?;
        Ok(Ring { envelope, header, records })
    }
}

const TOO_SHORT: Refusal = Refusal { number: 3, place: 0 };
pub const NOT_SOUND: Refusal = Refusal { number: 4, place: 0 };

/// The envelope and the records of an image, sound or not, or its refusal: under 16 bytes, N below
/// the least or above the most, the length.
#[inline(always)]
pub fn parts(image: &[u8], most: u64) -> Result<(Envelope, &[[u8; 8]]), Refusal> {
    let (header, rest) = image.split_first_chunk::<16>().ok_or(TOO_SHORT)?;
    let envelope = Envelope::load(header);
    if !(LEAST_SIZE..=most).contains(&(envelope.word & 0xFF)) {
        return Err(NOT_SOUND);
    }
    let (records, _) = rest.as_chunks::<8>();
    let records = records.get(..envelope.size()).ok_or(TOO_SHORT)?;
    Ok((envelope, records))
}

/// The envelope and the records of a sound image, or its refusal: what its parts are refused with,
/// then what the walk finds.
#[inline(always)]
pub fn sound<const FAULT: u8>(image: &[u8]) -> Result<(Envelope, &[[u8; 8]]), Refusal> {
    let (envelope, records) = parts(image, MOST_SIZE)?;
    walk::<FAULT>(envelope, records).verdict()?;
    Ok((envelope, records))
}

/// Whether no event of the codes 2 to 7 is possible on a sound image: the envelope and requests are
/// on no link, nobody has news, and no stage is one that main or get ends.
#[inline(always)]
pub fn stopped<const FAULT: u8>(records: &[[u8; 8]]) -> bool {
    let mut waiting = 0;
    for (process, record) in records.iter().enumerate() {
        let record = u64::from_le_bytes(*record);
        let overlooked = if FAULT == 14 && process + 1 == records.len() { LINK_EMPTY } else { 0 };
        waiting |= (record & !overlooked) | ENDED_BY_2_OR_3[(record & 15) as usize];
    }
    waiting & (ARRIVING | NEWS | LINK_FULL | LINK_EMPTY) == 0
}

/// Not 0, like news, for the stages that events 2 and 3 end.
static ENDED_BY_2_OR_3: [u64; 16] = [0, NEWS, 0, NEWS, NEWS, 0, NEWS, 0, NEWS, NEWS, 0, 0, 0, 0, 0, 0];

/// The bytes of a buffer that a fresh ring fills, or refusal 3.
pub fn buffer_for(size: usize, image: &mut [u8]) -> Result<&mut [u8], Refusal> {
    image.get_mut(..16 + 8 * size).ok_or(TOO_SHORT)
}

/// Writes the fresh ring.
pub fn fill_fresh(size: usize, home: usize, image: &mut [u8]) {
    image.fill(0);
    image[0] = size as u8;
    image[16 + 8 * home + 1] = (HAVE >> 8) as u8;
}
