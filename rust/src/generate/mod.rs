//! Random lists of calls. The generator runs the agent on what it writes, so
//! it knows the state and can choose what is likely to matter next.

mod actions;
mod devices;
mod messages;
pub(crate) mod noise;
mod orders;
mod peers;
mod pieces;
pub mod random;
pub(crate) mod setups;
pub(crate) mod text;

use crate::lines::{Call, Host, Line};
use crate::state::{State, CHANNELS, JOURNAL_WORDS, OUTPUT_BYTES, SLOTS};
use actions::ACTIONS;
use random::Random;
use std::io::{self, Write};
use std::process::ExitCode;

/// The whole of a program `NAME SEED COUNT` that writes a random list.
pub fn write_list(usage: &str, make: fn(u64, u64) -> Vec<u8>) -> io::Result<ExitCode> {
    let numbers: Vec<Option<u64>> = std::env::args()
        .skip(1)
        .map(|text| text.parse().ok())
        .collect();
    let [Some(seed), Some(count)] = numbers[..] else {
        eprintln!("usage: {usage}");
        return Ok(ExitCode::from(2));
    };
    io::stdout().write_all(&make(seed, count))?;
    Ok(ExitCode::SUCCESS)
}

/// A text of `calls` calls from a seed.
pub fn generate(seed: u64, calls: u64) -> Vec<u8> {
    let mut generator = Generator::new(seed, calls);
    generator.before_setup();
    while generator.calls < generator.stop {
        generator.list();
    }
    generator.stop = calls;
    generator.empty_journal();
    generator.call(Call::State);
    if generator.random.once_in(2) {
        // A cut last line is read as a line.
        generator.text.pop();
    }
    generator.text
}

/// How often things are done in one list, the calls from a setup to the next.
struct Mixture {
    weights: Vec<u64>,
    /// The calls of the list.
    length: u64,
    /// In a thousand calls: drains while there is room, odd lines, sizes.
    drains: u64,
    odd_lines: u64,
    odd_sizes: u64,
    /// A full journal is drained of one entry only.
    tight: bool,
    /// Calls from one `state` to the next.
    gap: u64,
    /// In a thousand messages: those that come in pieces.
    pieces: u64,
    /// Whether something may undo what was built up.
    upsets: bool,
}

impl Mixture {
    fn pick(random: &mut Random) -> Mixture {
        let calm = random.once_in(3);
        let weights = ACTIONS.iter().map(|(_, weight, upsets)| {
            let factor = random.pick(&[0, 1, 1, 2, 4]);
            if *upsets && calm {
                0
            } else {
                weight * factor + u64::from(!*upsets)
            }
        });
        Mixture {
            weights: weights.collect(),
            length: random.pick(&[15, 30, 60, 60, 120, 120, 250, 400, 1_500]),
            drains: random.pick(&[0, 0, 15, 60, 200]),
            odd_lines: random.pick(&[0, 2, 10, 40]),
            odd_sizes: random.pick(&[0, 5, 20, 60]),
            tight: random.once_in(4),
            gap: random.between(5, 20),
            pieces: random.pick(&[0, 0, 0, 0, 0, 100, 400, 1_000]),
            upsets: !calm,
        }
    }
}

pub(crate) struct Generator {
    random: Random,
    host: Host,
    text: Vec<u8>,
    /// The host's answers, which are not kept.
    answer: Vec<u8>,
    calls: u64,
    /// No calls are added once there are so many.
    stop: u64,
    mixture: Mixture,
    /// By channel, what the peer has sent and the front has not taken.
    streams: [Vec<u8>; CHANNELS],
    /// The number of the last device request.
    device_number: u64,
    /// Calls until the sizes are the usual ones again.
    odd_sizes_left: u64,
    calls_at_state: u64,
}

impl Generator {
    fn new(seed: u64, calls: u64) -> Generator {
        let mut random = Random::new(seed);
        Generator {
            mixture: Mixture::pick(&mut random),
            random,
            host: Host::default(),
            text: Vec::new(),
            answer: Vec::new(),
            calls: 0,
            // One is left for the last drain.
            stop: calls.saturating_sub(1),
            streams: Default::default(),
            device_number: 0,
            odd_sizes_left: 0,
            calls_at_state: 0,
        }
    }

    fn state(&self) -> &State {
        &self.host.state
    }

    /// Writes a call and performs it, unless there are enough calls.
    fn call(&mut self, call: Call) {
        if !self.count(&call) {
            return;
        }
        let start = self.text.len();
        text::write_call(&call, &mut self.random, &mut self.text);
        debug_assert_eq!(Line::read(&self.text[start..]), Line::Call(call.clone()));
        self.text.push(b'\n');
        self.perform(&call);
    }

    /// Counts a call; false if there are enough. Lines that are no calls of
    /// the agent do not count.
    fn count(&mut self, call: &Call) -> bool {
        if !call.is_counted() {
            return true;
        }
        let room = self.calls < self.stop;
        self.calls += u64::from(room);
        room
    }

    fn perform(&mut self, call: &Call) {
        if let Call::Setup(_) = call {
            self.streams = Default::default();
        }
        self.answer.clear();
        self.host.perform(call, &mut self.answer);
    }

    /// A message, in some lists in pieces.
    fn receive(&mut self, channel: u64, message: Vec<u8>) {
        if !self.by_pieces(channel, &message) {
            self.call(Call::Receive(channel, message));
        }
    }

    /// Writes a line as it is, and performs it if it is a call.
    fn raw(&mut self, line: &[u8]) {
        if let Line::Call(call) = Line::read(line) {
            if !self.count(&call) {
                return;
            }
            self.perform(&call);
        }
        self.text.extend_from_slice(line);
        self.text.push(b'\n');
    }

    /// One list: a setup, its calls, and nearly always a last drain.
    fn list(&mut self) {
        self.mixture = Mixture::pick(&mut self.random);
        while !self.random.once_in(3) {
            self.refused_setup();
        }
        if self.random.once_in(3) {
            self.setup_without_journal();
        }
        if self.random.once_in(10) {
            // Setup is lent no output, and leaves its size.
            self.odd_output();
            self.odd_sizes_left = self.random.between(1, 5);
        }
        let words = setups::good(&mut self.random);
        let devices = devices::good(&mut self.random);
        let ids = peers::good(&mut self.random);
        self.set_up(words, devices, ids);
        let end = self.stop.min(self.calls + self.mixture.length);
        while self.calls < end {
            self.step();
        }
        if !self.random.once_in(30) {
            self.empty_journal();
        }
    }

    /// A setup that is refused for one of its lists or for several, and some
    /// calls on the empty state.
    fn refused_setup(&mut self) {
        let random = &mut self.random;
        let bad = match random.weighted(&[28, 34, 34, 4]) {
            0 => [true, false, false],
            1 => [false, true, false],
            2 => [false, false, true],
            _ => [random.once_in(2), random.once_in(2), random.once_in(2)],
        };
        let blocks = if bad[0] { setups::bad } else { setups::good }(random);
        let devices = if bad[1] { devices::bad } else { devices::good }(random);
        let ids = if bad[2] { peers::bad } else { peers::good }(random);
        self.set_up(blocks, devices, ids);
        self.on_empty_state();
        self.empty_journal();
    }

    /// A setup that is lent a journal of another length, with good lists or
    /// bad ones, and some calls on the empty state.
    fn setup_without_journal(&mut self) {
        self.odd_journal();
        let random = &mut self.random;
        let bad = random.once_in(3);
        let blocks = if bad { setups::bad } else { setups::good }(random);
        let devices = devices::good(random);
        let ids = peers::good(random);
        self.set_up(blocks, devices, ids);
        self.on_empty_state();
        self.usual_sizes();
        if self.random.once_in(2) {
            self.each_call();
        }
    }

    /// The state, which is the empty one, and some calls on it.
    fn on_empty_state(&mut self) {
        self.show_state();
        for _ in 0..self.random.pick(&[0, 0, 1, 3, 6]) {
            match self.random.once_in(2) {
                true => self.each_call(),
                false => self.step(),
            }
        }
        if self.random.once_in(6) {
            self.odd_output();
            self.any_piece();
            self.usual_sizes();
        }
    }

    /// Each call before there is a setup.
    fn before_setup(&mut self) {
        self.call(Call::State);
        for _ in 0..150.min(self.stop / 20) {
            self.each_call();
        }
    }

    /// One action, with what may come before and after it.
    fn step(&mut self) {
        self.trouble();
        let full = self.state().held == SLOTS;
        let drains = if full { 200 } else { self.mixture.drains };
        if self.random.per_mille(drains) {
            self.drain(full);
        }
        let removal = self.state().removal;
        if (full || self.odd_sizes_left > 0) && self.random.once_in(3) {
            // All calls are refused alike now.
            self.each_call();
        } else {
            let place = self.random.weighted(&self.mixture.weights);
            ACTIONS[place].0(self);
        }
        let moved = self.state().removal != removal && self.random.once_in(4);
        if moved || self.calls >= self.calls_at_state + self.mixture.gap {
            self.show_state();
        }
    }

    fn show_state(&mut self) {
        self.calls_at_state = self.calls;
        self.call(Call::State);
    }

    /// Odd lines and odd sizes, and the usual sizes after some calls.
    fn trouble(&mut self) {
        if self.random.per_mille(self.mixture.odd_lines) {
            let line = match self.random.once_in(30) {
                true => noise::long_line(&mut self.random, &noise::LONG),
                false => noise::odd_line(&mut self.random, &noise::ODD, b"show"),
            };
            self.raw(&line);
        }
        if self.odd_sizes_left > 0 {
            self.odd_sizes_left -= 1;
            if self.odd_sizes_left == 0 {
                self.usual_sizes();
            }
        } else if self.random.per_mille(self.mixture.odd_sizes) {
            self.odd_sizes();
        }
    }

    /// Lends a journal or an output of another size for some calls.
    fn odd_sizes(&mut self) {
        self.odd_sizes_left = self.random.between(1, 5);
        if self.random.once_in(2) {
            self.odd_journal();
        }
        self.odd_output();
        if self.random.once_in(3) {
            self.any_piece();
        }
    }

    fn odd_journal(&mut self) {
        let words = [0, 1, 64, 126, 127, 127, 129, 129, 200];
        let words = self.random.pick(&words);
        self.call(Call::Journal(words));
    }

    fn odd_output(&mut self) {
        if self.random.once_in(2) {
            let bytes = [0, 1, 671, 672, 2_591, 2_591, 2_591, 2_592, 2_593, 4_096];
            let bytes = self.random.pick(&bytes);
            self.call(Call::Output(bytes));
        }
    }

    fn usual_sizes(&mut self) {
        self.odd_sizes_left = 0;
        self.call(Call::Journal(JOURNAL_WORDS));
        self.call(Call::Output(OUTPUT_BYTES));
    }

    fn drain(&mut self, full: bool) {
        let words = match self.random.weighted(&[40, 25, 35]) {
            _ if full && self.mixture.tight => self.random.between(2, 5),
            0 => self.random.pick(&[0, 1, 2, 3, 5, 7, 63, 64]),
            1 => self.random.below(257),
            _ => self.random.pick(&[127, 128, 129, 256]),
        };
        self.call(Call::Drain(words as usize));
    }

    /// Drains everything that is held.
    fn empty_journal(&mut self) {
        if self.odd_sizes_left > 0 {
            self.usual_sizes();
        }
        let words = self.random.between(JOURNAL_WORDS as u64, 256);
        self.call(Call::Drain(words as usize));
    }
}
