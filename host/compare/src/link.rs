//! What an image shows of a request that crosses the envelope on a link.

use samples::crossing_lists::Status;

const ARRIVING: u8 = 1 << 1;

/// Byte of the record of a process.
fn byte(image: &[u8], process: usize, at: usize) -> u8 {
    image[16 + 8 * process + at]
}

pub fn stage(image: &[u8], process: usize) -> u8 {
    byte(image, process, 0)
}

pub fn left(image: &[u8], process: usize) -> usize {
    let n = usize::from(image[0]);
    (process + n - 1) % n
}

/// The process at which the envelope arrives, if it is on a link.
pub fn arriving(image: &[u8]) -> Option<usize> {
    (0..usize::from(image[0])).find(|process| byte(image, *process, 1) & ARRIVING != 0)
}

/// Whether a request of a process lies on the link to its left.
pub fn on_link(image: &[u8], process: usize, request: Status) -> bool {
    byte(image, left(image, process), 2) >> (6 + request.bit) & 1 == 1
}

/// Whether a process has asked its left.
pub fn asked_itself(image: &[u8], process: usize, request: Status) -> bool {
    byte(image, process, 2) >> (2 + request.bit) & 1 == 1
}

/// Whether the request crosses the envelope on the link that the envelope is on.
pub fn crosses(image: &[u8], request: Status) -> bool {
    arriving(image).is_some_and(|process| on_link(image, process, request))
}
