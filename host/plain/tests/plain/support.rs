//! Small helpers of the tests: event lists as document 01 writes them, and calls with their
//! answers.

pub use guide::seal as give_check;

/// The answer of a call: its number and the words of its result.
#[derive(Debug, PartialEq)]
pub struct Answer {
    pub number: u64,
    pub words: [u64; 10],
}

/// Makes a call with a result slice of 80 bytes that starts as nonsense.
pub fn answer(call: impl FnOnce(&mut [u8]) -> u64) -> Answer {
    let mut result = [0xA5; 80];
    let number = call(&mut result);
    let mut words = [0; 10];
    for (word, bytes) in words.iter_mut().zip(result.chunks_exact(8)) {
        *word = u64::from_le_bytes(bytes.try_into().unwrap());
    }
    Answer { number, words }
}

/// The answer of a call that is done: 0, the words given, then zeros.
pub fn done(words: &[u64]) -> Answer {
    let mut all = [0; 10];
    all[..words.len()].copy_from_slice(words);
    Answer { number: 0, words: all }
}

/// The answer of a call that is refused.
pub fn refused(number: u64, place: u64) -> Answer {
    Answer { number, ..done(&[place]) }
}

/// The events of a list of `process.code`; a code 0 gets 7 as its message.
pub fn events(list: &str) -> Vec<[u8; 8]> {
    let event = |(process, code)| guide::event(process, code, if code == 0 { 7 } else { 0 });
    guide::read_list(list).into_iter().map(event).collect()
}

/// The tape of some events.
pub fn tape(n: u64, events: &[[u8; 8]]) -> Vec<u8> {
    guide::tape(n, events.as_flattened())
}

/// Step, on an image.
pub fn step(image: &mut [u8], event: &[u8]) -> Answer {
    answer(|result| plain::ring_step::<0>(image, event, result))
}

/// Run, on an image, with a ledger of a given length: the answer and the ledger.
pub fn run(image: &mut [u8], tape: &[u8], ledger: usize) -> (Answer, Vec<u8>) {
    let mut ledger = vec![0xA5; ledger];
    let answer = answer(|result| plain::ring_run::<0>(image, tape, &mut ledger, result));
    (answer, ledger)
}

/// Stopped: the answer must be yes or no.
pub fn stopped(image: &[u8]) -> bool {
    let answer = answer(|result| plain::ring_stopped::<0>(image, result));
    assert!(answer == done(&[0]) || answer == done(&[1]), "{answer:?}");
    answer.words[0] == 1
}

/// The image after some events, by steps none of which is refused; it counts the idle ones too.
pub fn after(n: u64, home: u64, events: &[[u8; 8]]) -> (Vec<u8>, usize) {
    let mut image = guide::fresh(n, home);
    let mut idle = 0;
    for event in events {
        let answer = step(&mut image, event);
        assert_eq!(answer.number, 0);
        idle += usize::from(answer.words[0] == 0);
    }
    (image, idle)
}

/// The input of ringrun for some events.
pub fn input(n: u8, home: u8, events: &[[u8; 8]]) -> Vec<u8> {
    [&[n, home], &tape(n.into(), events)[..]].concat()
}

/// What ringrun prints for some events.
pub fn printed(n: u8, home: u8, events: &[[u8; 8]]) -> String {
    report(&input(n, home, events))
}

/// What ringrun prints for an input.
pub fn report(input: &[u8]) -> String {
    String::from_utf8(plain::report(input)).unwrap()
}
