//! What a step may do with the front.

use super::{bad_line, longest, message, over, short, to_end, useful};
use crate::build;
use crate::front::{Stage, MAX_MESSAGE};
use crate::generate::{messages, Generator};
use crate::lines::Call;
use crate::state::{refusal, CHANNELS, OUTPUT_BYTES, SLOTS};
use crate::wire::{self, HEADER};

/// The most bytes of a piece, which still stand on a line.
const MOST: usize = 16_000;
/// The most pieces that a message is sent in.
const MOST_PIECES: u64 = 20;

impl Generator {
    fn stage(&self, channel: u64) -> Stage {
        self.host.front.streams[channel as usize].stage
    }

    fn sent(&mut self, channel: u64) -> &mut Vec<u8> {
        &mut self.streams[channel as usize]
    }

    /// A channel; half of the time one whose front is not empty.
    fn front_channel(&mut self) -> u64 {
        let stages = (0..).zip(self.host.front.stages());
        let busy = stages.filter(|(_, stage)| *stage != Stage::EMPTY);
        let busy: Vec<u64> = busy.map(|(channel, _)| channel).collect();
        match self.random.pick_any(&busy) {
            Some(channel) if self.random.once_in(2) => channel,
            _ => messages::channel(&mut self.random),
        }
    }

    /// A channel whose front is empty, reopened if it was not, and its stream
    /// at the beginning of a message.
    fn anew(&mut self, channel: u64) {
        if self.stage(channel) != Stage::EMPTY {
            self.call(Call::Reopen(channel));
        }
        self.sent(channel).clear();
    }

    /// Offers a piece; gives how many bytes were taken, or its refusal. If
    /// there are enough calls it is none, and refused by 0.
    fn offer_piece(&mut self, channel: u64, bytes: &[u8]) -> Result<usize, u64> {
        self.answer.clear();
        self.call(Call::Piece(channel, bytes.to_vec()));
        let answer = String::from_utf8_lossy(&self.answer);
        let mut fields = answer.trim_end().split(' ').skip(1);
        let accepted = fields.next() == Some("accepted");
        let number = fields.next().and_then(|number| number.parse().ok());
        match accepted {
            true => Ok(number.unwrap_or(0) as usize),
            false => Err(number.unwrap_or(0)),
        }
    }

    /// Offers the first bytes of a channel's stream, which loses those taken.
    fn offer_sent(&mut self, channel: u64, length: usize) -> Result<(), u64> {
        let bytes = self.sent(channel)[..length].to_vec();
        let taken = self.offer_piece(channel, &bytes)?;
        self.sent(channel).drain(..taken);
        Ok(())
    }

    /// Adds one to four messages to a channel's stream.
    fn send(&mut self, channel: u64) {
        for _ in 0..self.random.pick(&[1, 1, 2, 2, 3, 4]) {
            let upsets = self.mixture.upsets;
            let more = message(&mut self.random, &self.host.state, channel, upsets);
            self.sent(channel).extend(more);
            if self.sent(channel).len() > MOST / 2 {
                return;
            }
        }
    }

    /// How many bytes of a stream end a message or its header.
    fn to_end(&self, channel: u64) -> usize {
        let kept = self.host.front.streams[channel as usize].kept();
        to_end(kept, &self.streams[channel as usize])
    }

    /// How many bytes of a stream to offer next.
    fn piece_length(&mut self, channel: u64) -> usize {
        let most = self.sent(channel).len().min(MOST);
        let end = self.to_end(channel) as u64;
        let random = &mut self.random;
        let length = match random.weighted(&[4, 8, 25, 5, 20, 8, 8, 22]) {
            0 => 0,
            1 => 1,
            // A cut inside of the message.
            2 => random.up_to(end.saturating_sub(1)),
            3 => end.saturating_sub(1),
            4 => end,
            5 => end + random.between(1, 9),
            6 => random.up_to(most as u64),
            _ => most as u64,
        };
        (length as usize).min(most)
    }

    /// Offers a piece of a channel's stream, and mostly again what a full
    /// journal refuses.
    fn advance(&mut self, channel: u64) -> Result<(), u64> {
        let length = self.piece_length(channel);
        match self.offer_sent(channel, length) {
            Err(refusal::FULL) => self.offer_again(channel, length),
            offered => offered,
        }
    }

    /// What may follow a piece that a full journal refused: the same again, at
    /// once or after a drain, a part of it that ends no message, or after a
    /// drain a byte more or less.
    fn offer_again(&mut self, channel: u64, length: usize) -> Result<(), u64> {
        let end = self.to_end(channel) as u64;
        let how = self.random.weighted(&[20, 15, 15, 25, 15, 10]);
        match how {
            3 | 5 => self.call(Call::Drain(2)),
            4 => {
                let words = self.random.pick(&[4, 5, 16, 64, 128]);
                self.call(Call::Drain(words));
            }
            _ => {}
        }
        let length = match how {
            0 => return Err(refusal::FULL),
            2 => self.random.up_to(end.saturating_sub(1)) as usize,
            5 if length < self.sent(channel).len().min(MOST) => length + 1,
            5 => length - 1,
            _ => length,
        };
        self.offer_sent(channel, length)
    }

    /// Some pieces of a channel's stream, now and then with a call between.
    pub(in crate::generate) fn stream(&mut self) {
        let channel = self.front_channel();
        if self.stage(channel) == Stage::Dropping && self.random.once_in(3) {
            self.anew(channel);
        }
        for _ in 0..self.random.between(1, 6) {
            if self.calls >= self.stop {
                return;
            }
            let rest = self.sent(channel).len();
            if rest == 0 || rest < HEADER && self.random.once_in(3) {
                self.send(channel);
            }
            // A refused piece comes again later.
            let _ = self.advance(channel);
            if self.random.once_in(10) {
                self.between(channel);
            }
        }
        // What was not taken comes later, too, or never.
        if self.random.once_in(12) {
            self.sent(channel).clear();
        }
    }

    /// A call of the agent between two pieces of a channel.
    fn between(&mut self, channel: u64) {
        let upsets = self.mixture.upsets;
        let live = self.pick_live(|live| live.channel == channel);
        let service = self.random.below(4);
        let (random, state) = (&mut self.random, &self.host.state);
        let call = match random.below(10) {
            0 if upsets => Call::Close(channel),
            1 if upsets => Call::Receive(channel, messages::init_req(random)),
            2 if upsets => Call::Receive(channel, messages::damaged(random, state, channel)),
            3 if upsets => Call::Withdraw(channel, live.map_or(service, |live| live.service)),
            4 if upsets => Call::Receive(channel, build::init_req(1, 0)),
            5 | 6 => Call::Offer(channel, service),
            7 => return self.permit(),
            8 => Call::Take,
            9 => Call::Reopen(messages::channel(random)),
            _ => Call::Receive(channel, short(random, state, channel, upsets)),
        };
        self.call(call);
    }

    /// One message, a byte a piece or cut once at any place.
    pub(in crate::generate) fn cut_message(&mut self) {
        let channel = messages::channel(&mut self.random);
        self.anew(channel);
        let (random, upsets) = (&mut self.random, self.mixture.upsets);
        let message = match random.below(6) {
            0 => longest(random, upsets),
            1 if upsets => over(random),
            _ => useful(random, &self.host.state, channel, upsets),
        };
        if message.len() < 24 && random.once_in(6) {
            for byte in &message {
                let _ = self.offer_piece(channel, &[*byte]);
            }
            return;
        }
        let any = random.up_to(message.len() as u64) as usize;
        let header = random.below(HEADER as u64) as usize;
        let at = random.pick(&[any, any, header, message.len() - 1]);
        *self.sent(channel) = message;
        // What is not taken stays for a stream.
        if self.offer_sent(channel, at).is_ok() {
            let rest = self.sent(channel).len();
            let _ = self.offer_sent(channel, rest);
        }
    }

    /// A header that makes a channel's front drop, what is dropped then, and
    /// often its reopening.
    pub(in crate::generate) fn dropping(&mut self) {
        let channel = messages::channel(&mut self.random);
        self.anew(channel);
        if !self.state().channels[channel as usize].ready && self.random.once_in(2) {
            self.call(Call::Receive(channel, build::init_req(1, 0)));
        }
        let header = over(&mut self.random);
        let at = self.random.up_to(HEADER as u64) as usize;
        let _ = self.offer_piece(channel, &header[..at]);
        let _ = self.offer_piece(channel, &header[at..]);
        for _ in 0..self.random.below(4) {
            let random = &mut self.random;
            let piece = match random.below(5) {
                0 => Vec::new(),
                1 => vec![0],
                2 => build::init_req(1, 0),
                3 => vec![0x5a; random.pick(&[100, MAX_MESSAGE + 1, 9_000])],
                _ => messages::any(random, &self.host.state, channel),
            };
            let _ = self.offer_piece(channel, &piece);
            match self.random.below(12) {
                0 => self.without_output(channel),
                1..=3 => self.between(channel),
                _ => {}
            }
        }
        if !self.random.once_in(3) {
            self.call(Call::Reopen(channel));
        }
    }

    /// Every channel's front keeps the beginning of a message, or drops.
    pub(in crate::generate) fn every_front(&mut self) {
        let upsets = self.mixture.upsets;
        let drops = upsets && self.random.once_in(2);
        for channel in 0..CHANNELS as u64 {
            let drop = upsets && drops != self.random.once_in(12);
            if drop && self.stage(channel) == Stage::Dropping {
                continue;
            }
            self.anew(channel);
            let (random, state) = (&mut self.random, &self.host.state);
            let mut piece = match drop {
                true => build::with_length(wire::DATA, 4_097, &[]),
                false => useful(random, state, channel, upsets),
            };
            if !drop {
                piece.truncate(random.between(1, piece.len() as u64 - 1) as usize);
            }
            let _ = self.offer_piece(channel, &piece);
        }
    }

    /// Reopens a front, whatever it does.
    pub(in crate::generate) fn reopen(&mut self) {
        let channel = self.front_channel();
        self.call(Call::Reopen(channel));
        if self.random.once_in(2) {
            self.sent(channel).clear();
        }
    }

    /// Pieces of a stream while the journal is full, or nearly so.
    pub(in crate::generate) fn full_stream(&mut self) {
        let permitted = self.state().orders.permitted[0];
        for _ in 0..6 {
            // An entry that changes nothing.
            if self.state().held + 7 >= SLOTS && self.state().held + 1 < SLOTS {
                self.call(Call::Permit(2, permitted));
            }
        }
        if self.random.once_in(4) {
            let channel = self.front_channel();
            self.without_output(channel);
        }
        self.stream();
    }

    /// Pieces while the output is short: on a channel, which has a message to
    /// end if it keeps none, and on none.
    fn without_output(&mut self, channel: u64) {
        self.call(Call::Output(OUTPUT_BYTES - 1));
        let _ = self.offer_piece(channel, &build::init_req(1, 0));
        if self.random.once_in(2) {
            let _ = self.offer_piece(CHANNELS as u64, &[]);
        }
        self.usual_sizes();
    }

    /// A piece where it may be refused: what was sent, any bytes or none, a few
    /// on no channel.
    pub(in crate::generate) fn any_piece(&mut self) {
        if self.random.once_in(5) {
            let channel = self.random.pick(&[4, 5, 1 << 32, u64::MAX]);
            let bytes = self.random.pick(&[0, 0, 1, 12]);
            let _ = self.offer_piece(channel, &build::init_req(1, 0)[..bytes]);
            return;
        }
        let channel = self.front_channel();
        let rest = self.sent(channel).len().min(MOST);
        let _ = match self.random.below(6) {
            0 => self.offer_sent(channel, 0),
            1 | 2 if rest > 0 => self.offer_sent(channel, rest),
            1 => self.offer_piece(channel, &[0]).map(drop),
            2 => {
                let header = over(&mut self.random);
                self.offer_piece(channel, &header).map(drop)
            }
            _ => self.offer_piece(channel, &build::init_req(1, 0)).map(drop),
        };
    }

    /// A line for the front among the calls that is none.
    pub(in crate::generate) fn odd_piece_line(&mut self) {
        let line = bad_line(&mut self.random);
        self.raw(&line);
    }

    /// Sends a message by pieces, if this list does so and the front is at the
    /// beginning of a message.
    pub(in crate::generate) fn by_pieces(&mut self, channel: u64, message: &[u8]) -> bool {
        let at = usize::try_from(channel).unwrap_or(CHANNELS);
        let begins = at < CHANNELS
            && self.stage(channel) == Stage::EMPTY
            && self.streams[at].is_empty()
            && message.len() <= MOST;
        if !begins || !self.random.per_mille(self.mixture.pieces) {
            return false;
        }
        *self.sent(channel) = message.to_vec();
        let whole = self.random.once_in(2);
        for _ in 0..self.random.between(4, MOST_PIECES) {
            let rest = self.sent(channel).len();
            let offered = match whole {
                true => self.offer_sent(channel, rest),
                false => self.advance(channel),
            };
            if offered.is_err() || self.sent(channel).is_empty() {
                break;
            }
        }
        true
    }
}
