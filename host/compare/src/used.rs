//! Where the timed and the counted calls start.

use guide::Random;

/// The image of a ring that has been in use.
pub fn used_image(n: u64, random: &mut Random) -> Vec<u8> {
    let mut image = guide::fresh(n, 0);
    let list = guide::guided(&image, 4_000, random);
    for event in list.chunks_exact(8) {
        assert_eq!(plain::ring_step::<0>(&mut image, event, &mut [0; 80]), 0);
    }
    image
}
