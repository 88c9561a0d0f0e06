//! What the tests read from a sample: its text, its counts, its last image.

use samples::Sample;

/// N, home and the tape of an input; N or home is 0 where it is missing.
pub fn parts(input: &[u8]) -> (u8, u8, &[u8]) {
    let byte = |at: usize| input.get(at).copied().unwrap_or(0);
    (byte(0), byte(1), input.get(2..).unwrap_or_default())
}

/// What ringrun must print for a sample.
pub fn text(sample: &Sample) -> String {
    String::from_utf8(plain::report(&sample.input)).expect("it is text")
}

/// The number and the place of a refused sample.
pub fn refusal(sample: &Sample) -> Option<(u8, usize)> {
    let text = text(sample);
    let (number, place) = text.strip_prefix("refused ")?.strip_suffix('\n')?.split_once(" at ")?;
    Some((number.parse().unwrap(), place.parse().unwrap()))
}

/// Puts, gets, fills, takes, sent, got and idle of a sample that is accepted.
pub fn counts(sample: &Sample) -> [u64; 7] {
    let text = text(sample);
    let line = text.lines().nth_back(1).expect("the counts come last but one");
    let words: Vec<&str> = line.split(' ').collect();
    let numbers: Vec<u64> = words.iter().skip(1).step_by(2).map(|digits| digits.parse().unwrap()).collect();
    numbers.try_into().expect("there are seven counts")
}

/// Whether a sample that is accepted ends stopped.
pub fn ends_stopped(sample: &Sample) -> bool {
    match text(sample).lines().last() {
        Some("stopped") => true,
        Some("moving") => false,
        other => panic!("{}: {other:?}", sample.name),
    }
}

/// The image after all events of a sample that is accepted, by a step for each.
pub fn last_image(sample: &Sample) -> Vec<u8> {
    let (n, home, tape) = parts(&sample.input);
    let mut image = guide::fresh(n.into(), home.into());
    for block in tape.chunks(512) {
        let count = usize::from(block[2]);
        for event in block[8..8 + 8 * count].chunks(8) {
            step(&mut image, event);
        }
    }
    image
}

/// Performs an event and gives the kind of its outcome.
pub fn step(image: &mut [u8], event: &[u8]) -> u8 {
    let mut result = [0; 80];
    assert_eq!(plain::ring_step::<0>(image, event, &mut result), 0);
    result[0]
}

/// Whether an image is stopped.
pub fn stopped(image: &[u8]) -> bool {
    let mut result = [0; 80];
    assert_eq!(plain::ring_stopped::<0>(image, &mut result), 0);
    result[0] == 1
}
