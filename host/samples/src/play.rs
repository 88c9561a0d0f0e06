//! A list of events as it grows: each is performed on the ring that the ones before it have left.

/// Events from a fresh ring, and the image that they lead to.
#[derive(Clone)]
pub struct Play {
    home: u64,
    image: Vec<u8>,
    events: Vec<[u8; 8]>,
}

impl Play {
    /// No events yet.
    pub fn fresh(n: u64, home: u64) -> Play {
        Play { home, image: guide::fresh(n, home), events: Vec::new() }
    }

    /// The events of a list of `process.code` too, parted by blanks. The message of an event of code 0
    /// is its number, counted from 1 over all events.
    pub fn then(mut self, list: &str) -> Play {
        for (process, code) in guide::read_list(list) {
            let message = if code == 0 { self.events.len() as u32 + 1 } else { 0 };
            self.perform(guide::event(process, code, message));
        }
        self
    }

    /// A put of this message at a process too.
    pub fn put(mut self, process: u64, message: u32) -> Play {
        self.perform(guide::event(process, 0, message));
        self
    }

    /// Guided events too.
    pub fn guided(mut self, events: usize, seed: u64) -> Play {
        let list = guide::guided(&self.image, events, &mut guide::Random::new(seed));
        list.as_chunks::<8>().0.iter().for_each(|event| self.perform(*event));
        self
    }

    /// Rounds of events 2 to 7 at every process too, until one would move nothing or 4N are done.
    pub fn rounds(mut self) -> Play {
        for _ in 0..4 * self.n() {
            if self.stopped() {
                break;
            }
            for process in 0..self.n() {
                (2..8).for_each(|code| self.perform(guide::event(process, code, 0)));
            }
        }
        self
    }

    /// What ringrun reads: N, home and the tape.
    pub fn input(&self) -> Vec<u8> {
        let tape = guide::tape(self.n(), self.events.as_flattened());
        [&[self.image[0], self.home as u8], &tape[..]].concat()
    }

    fn n(&self) -> u64 {
        self.image[0].into()
    }

    fn perform(&mut self, event: [u8; 8]) {
        assert_eq!(plain::ring_step::<0>(&mut self.image, &event, &mut [0; 80]), 0);
        self.events.push(event);
    }

    fn stopped(&self) -> bool {
        let mut result = [0; 80];
        assert_eq!(plain::ring_stopped::<0>(&self.image, &mut result), 0);
        result[0] == 1
    }
}
