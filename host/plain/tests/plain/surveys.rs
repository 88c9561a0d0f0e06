//! The survey against document 02: what it tells of images, sound or not, its refusals and their order.

use crate::refusals::{altered_image, sound};
use crate::support::*;

/// The survey of an image.
fn survey<const FAULT: u8>(image: &[u8]) -> Answer {
    answer(|result| plain::ring_survey::<FAULT>(image, result))
}

/// What is due for an image that isn't refused, flag by flag and process by process.
fn due(image: &[u8]) -> Answer {
    let records = || image[16..].chunks_exact(8).take(image[0].into());
    let flags = records().map(|record| u64::from((record[1] & 1) + (record[1] >> 1 & 1))).sum();
    let marked = |bit: u8| {
        let in_set = records().enumerate().filter(|(_, record)| record[2] >> bit & 1 == 1);
        in_set.map(|(process, _)| 1 << process).sum()
    };
    done(&[if sound(image) { 0 } else { 4 }, 0, flags, marked(4), marked(5)])
}

/// An image with 300 guided events behind it, and marks.
fn used(n: u64, random: &mut guide::Random) -> Vec<u8> {
    let mut image = guide::fresh(n, n - 1);
    let list = guide::guided(&image, 300, random);
    list.chunks_exact(8).for_each(|event| assert_eq!(step(&mut image, event).number, 0));
    while image[3..5] == [0, 0] {
        let event = guide::guided_event(&image, 0, random);
        step(&mut image, &event);
    }
    image
}

#[test]
fn a_fresh_ring_has_one_flag_and_no_marks() {
    for n in 2..=64 {
        assert_eq!(survey::<0>(&guide::fresh(n, n - 1)), done(&[0, 0, 1, 0, 0]));
    }
}

#[test]
fn digit_i_is_process_i() {
    for n in [2, 3, 37, 64] {
        for process in 0..n {
            let mut image = guide::fresh(n, 0);
            image[16 + 8 * process as usize + 2] = 1 << 4;
            assert_eq!(survey::<0>(&image), done(&[4, 0, 1, 1 << process, 0]));
            image[16 + 8 * process as usize + 2] = 1 << 5;
            assert_eq!(survey::<0>(&image), done(&[4, 0, 1, 0, 1 << process]));
        }
    }
}

#[test]
fn every_bit_of_every_byte_set_is_all_flags_and_all_processes() {
    for n in 2..=64 {
        let mut image = vec![255; 16 + 8 * n as usize];
        image[0] = n as u8;
        let all = u64::MAX >> (64 - n);
        assert_eq!(survey::<0>(&image), done(&[4, 0, 2 * n, all, all]));
    }
}

#[test]
fn a_survey_is_exact_for_every_turned_bit() {
    let mut random = guide::Random::new(7);
    for n in [2, 3, 64] {
        for image in [guide::fresh(n, 0), used(n, &mut random), used(n, &mut random)] {
            assert_eq!(survey::<0>(&image), due(&image));
            for bit in 8..8 * image.len() {
                let mut turned = image.clone();
                turned[bit / 8] ^= 1 << (bit % 8);
                assert_eq!(survey::<0>(&turned), due(&turned), "bit {bit} of {image:?}");
            }
        }
    }
}

#[test]
fn a_survey_is_exact_for_altered_images_and_for_any_bytes() {
    let mut random = guide::Random::new(8);
    for n in 2..=64 {
        let image = used(n, &mut random);
        for _ in 0..200 {
            let altered = altered_image(&image, &mut random);
            assert_eq!(survey::<0>(&altered), due(&altered), "{altered:?}");
            let mut any: Vec<u8> = image.iter().map(|_| random.draw() as u8).collect();
            any[0] = n as u8;
            assert_eq!(survey::<0>(&any), due(&any), "{any:?}");
        }
    }
}

/// The verdict is the refusal of the other calls; a survey itself is refused by the length and by byte 0 alone.
#[test]
fn a_survey_is_refused_by_length_size_and_length() {
    for length in 0..16 {
        assert_eq!(survey::<0>(&vec![65; length]), refused(3, 0));
    }
    for size in [0, 1, 65, 66, 128, 255] {
        for length in [16, 32, 16 + 8 * usize::from(size), 3_000] {
            let mut image = vec![0; length];
            image[0] = size;
            assert_eq!(survey::<0>(&image), refused(4, 0));
        }
    }
    for size in [2, 3, 37, 64] {
        let whole = 16 + 8 * usize::from(size);
        for length in 16..whole + 20 {
            let mut image = vec![0xFF; length];
            image[0] = size;
            let number = if length < whole { 3 } else { 0 };
            assert_eq!(survey::<0>(&image).number, number, "{length} bytes for {size}");
        }
    }
}

#[test]
fn further_bytes_are_not_looked_at() {
    let mut random = guide::Random::new(9);
    for n in [2, 3, 37, 64] {
        let image = used(n, &mut random);
        let longer = [&image[..], &[255; 530]].concat();
        assert_eq!(survey::<0>(&longer), survey::<0>(&image));
    }
}

#[test]
fn a_short_result_stays_and_is_10_last() {
    for length in 0..80 {
        let mut result = vec![0xA5; length];
        let mut unsound = guide::fresh(2, 0);
        unsound[17] = 255;
        let mut number = |image: &[u8]| plain::ring_survey::<0>(image, &mut result);
        assert_eq!([number(&guide::fresh(2, 0)), number(&unsound)], [10, 10]);
        assert_eq!([number(&unsound[..31]), number(&[65; 600]), number(&[65; 15])], [3, 4, 3]);
        assert_eq!(result, vec![0xA5; length]);
    }
}

#[test]
fn faults_of_surveys_are_seen() {
    let mut image = guide::fresh(3, 0);
    image[18] = 1 << 4;
    assert_eq!(survey::<0>(&image), done(&[4, 0, 1, 1, 0]));
    assert_eq!(survey::<21>(&image), done(&[4, 0, 1, 4, 0]));
    image[17] = 3;
    assert_eq!(survey::<0>(&image), done(&[4, 0, 2, 1, 0]));
    assert_eq!(survey::<22>(&image), done(&[4, 0, 1, 1, 0]));
    let mut image = vec![0; 16 + 8 * 65];
    image[0] = 65;
    assert_eq!(survey::<0>(&image), refused(4, 0));
    assert_eq!(survey::<23>(&image), done(&[4]));
}
