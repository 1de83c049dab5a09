//! Random lists of lines. The generator runs the ends on what it writes and
//! keeps what each end sent in a queue to the other, so it knows the open
//! requests and what is still to be received.

mod actions;
mod fields;
mod lists;
mod noise;
mod text;

use super::{Call, Done, Host, Line, Received, Words};
use crate::generate::random::Random;
use actions::ACTIONS;
use std::collections::VecDeque;

/// A text of so many lines from a seed.
pub fn generate(seed: u64, lines: u64) -> Vec<u8> {
    let mut generator = Generator::new(seed, lines);
    generator.before_any_end();
    while generator.lines < lines {
        generator.list();
    }
    if generator.random.once_in(2) {
        // A cut last line is read as a line.
        generator.text.pop();
    }
    generator.text
}

/// How often things are done in one list, the lines from one pair of ends to
/// the next.
struct Mixture {
    weights: Vec<u64>,
    /// The actions of the list.
    length: u64,
    /// In a thousand actions.
    odd_lines: u64,
    states: u64,
    /// Session ids are few, so that they come again.
    few_sids: bool,
}

impl Mixture {
    fn pick(random: &mut Random) -> Mixture {
        let calm = random.once_in(3);
        let weights = ACTIONS.iter().map(|(_, weight, upsets)| {
            let factor = random.pick(&[0, 1, 1, 2, 4]);
            if *upsets && calm {
                0
            } else {
                weight * factor + u64::from(!*upsets)
            }
        });
        Mixture {
            weights: weights.collect(),
            length: random.pick(&[5, 10, 20, 20, 40, 80]),
            odd_lines: random.pick(&[0, 5, 30]),
            states: random.pick(&[200, 500, 1_000]),
            few_sids: random.once_in(4),
        }
    }
}

pub(crate) struct Generator {
    random: Random,
    host: Host,
    text: Vec<u8>,
    lines: u64,
    /// No lines are added once there are so many.
    stop: u64,
    mixture: Mixture,
    /// What each end is still to receive.
    queues: [VecDeque<Words>; 2],
    /// What was sent, the last ones.
    past: VecDeque<Words>,
}

/// How many messages are kept to be sent again.
const PAST: usize = 12;

impl Generator {
    fn new(seed: u64, lines: u64) -> Generator {
        let mut random = Random::new(seed);
        Generator {
            mixture: Mixture::pick(&mut random),
            random,
            host: Host::default(),
            text: Vec::new(),
            lines: 0,
            stop: lines,
            queues: Default::default(),
            past: VecDeque::new(),
        }
    }

    /// Each call on ends that were never set up.
    fn before_any_end(&mut self) {
        for number in [1, 0] {
            self.state(number);
            self.start(number);
            let words = [self.random.next(), self.random.next()];
            self.receive(number, words);
        }
    }

    /// One list: both ends set up, and its actions.
    fn list(&mut self) {
        self.mixture = Mixture::pick(&mut self.random);
        self.queues = Default::default();
        let pair = lists::pair(&mut self.random);
        for call in pair {
            self.call(call);
        }
        for _ in 0..self.mixture.length {
            self.step();
        }
    }

    /// One action, with the odd line that may come before it.
    fn step(&mut self) {
        if self.random.per_mille(self.mixture.odd_lines) {
            let line = noise::line(&mut self.random);
            self.raw(&line);
        }
        let place = self.random.weighted(&self.mixture.weights);
        ACTIONS[place].0(self);
    }

    /// Writes a call and performs it, unless there are enough lines.
    fn call(&mut self, call: Call) {
        let line = text::line(&call, &mut self.random);
        debug_assert_eq!(Line::read(&line), Line::Call(call));
        self.raw(&line);
    }

    /// Writes a line as it is, and performs it if it is a call.
    fn raw(&mut self, line: &[u8]) {
        if self.lines >= self.stop {
            return;
        }
        self.lines += 1;
        self.text.extend_from_slice(line);
        self.text.push(b'\n');
        if let Line::Call(call) = Line::read(line) {
            self.perform(&call);
        }
    }

    /// What an end sends goes to the queue of the other.
    fn perform(&mut self, call: &Call) {
        let sent = match self.host.perform(call) {
            Done::Start(sent) => sent,
            Done::Receive(Some(Received { sent, .. })) => sent,
            _ => None,
        };
        let (Call::Start(number, _) | Call::Receive(number, ..)) = *call else {
            return;
        };
        let Some(words) = sent else { return };
        self.queues[1 - number].push_back(words);
        self.past.push_back(words);
        if self.past.len() > PAST {
            self.past.pop_front();
        }
    }

    fn sid(&mut self) -> u32 {
        if self.mixture.few_sids {
            return self.random.below(3) as u32;
        }
        match self.random.weighted(&[90, 4, 3, 3]) {
            0 => self.random.next() as u32,
            1 => self.random.pick(&[0, 1, 1 << 31, u32::MAX - 1, u32::MAX]),
            2 => self.random.below(16) as u32,
            _ => self.past.back().map_or(0, |words| (words[0] >> 32) as u32),
        }
    }

    fn start(&mut self, number: usize) {
        let sid = self.sid();
        self.call(Call::Start(number, sid));
        self.sometimes_state(number);
    }

    fn receive(&mut self, number: usize, words: Words) {
        let sid = self.sid();
        self.call(Call::Receive(number, sid, words));
        self.sometimes_state(number);
    }

    fn sometimes_state(&mut self, number: usize) {
        if self.random.per_mille(self.mixture.states) {
            self.state(number);
        }
    }

    fn state(&mut self, number: usize) {
        self.call(Call::State(number));
    }

    fn either(&mut self) -> usize {
        self.random.below(2) as usize
    }
}
