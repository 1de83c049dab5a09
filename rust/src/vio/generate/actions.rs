//! What may happen to two ends with a queue each way.

use super::{fields, lists, Generator};
use crate::vio::words::{Message, ACK, INFO, NACK};
use crate::vio::{End, Request, Session, Version, Words};

/// An action, its weight, and whether it upsets an exchange in which one end
/// starts and each message is received once and in order.
pub type Action = (fn(&mut Generator), u64, bool);

pub const ACTIONS: [Action; 12] = [
    (Generator::next_message, 60, false),
    (Generator::start_one, 4, true),
    (Generator::crossed_starts, 3, true),
    (Generator::lose, 3, true),
    (Generator::repeat, 4, true),
    (Generator::damage, 8, true),
    (Generator::again, 5, true),
    (Generator::made_answer, 16, true),
    (Generator::made_request, 8, true),
    (Generator::other_message, 3, true),
    (Generator::another_end, 1, true),
    (Generator::look, 3, false),
];

impl Generator {
    /// An end whose queue is not empty.
    fn waiting(&mut self) -> Option<usize> {
        let first = self.either();
        [first, 1 - first]
            .into_iter()
            .find(|number| !self.queues[*number].is_empty())
    }

    /// The oldest message of a queue is received. If there is none, an end
    /// starts.
    fn next_message(&mut self) {
        match self.waiting() {
            Some(number) => self.receive_oldest(number),
            None => self.start_one(),
        }
    }

    fn receive_oldest(&mut self, number: usize) {
        if let Some(words) = self.queues[number].pop_front() {
            self.receive(number, words);
        }
    }

    fn start_one(&mut self) {
        let number = self.either();
        self.start(number);
    }

    /// Both start, then each receives the other's request and the answer.
    fn crossed_starts(&mut self) {
        self.queues = Default::default();
        let first = self.either();
        for number in [first, 1 - first] {
            self.start(number);
        }
        for _ in 0..self.random.between(1, 5) {
            let number = self.either();
            self.receive_oldest(number);
        }
    }

    fn lose(&mut self) {
        if let Some(number) = self.waiting() {
            self.queues[number].pop_front();
        }
    }

    /// The oldest message is received, and stays in the queue.
    fn repeat(&mut self) {
        if let Some(number) = self.waiting() {
            let words = self.queues[number][0];
            self.receive(number, words);
        }
    }

    /// The oldest message is received with one field changed, or one bit.
    fn damage(&mut self) {
        if let Some(number) = self.waiting() {
            let words = self.queues[number].pop_front().unwrap_or_default();
            let words = fields::changed(words, &mut self.random);
            self.receive(number, words);
        }
    }

    /// An earlier message is received by either end.
    fn again(&mut self) {
        let number = self.either();
        if self.past.is_empty() {
            return;
        }
        let place = self.random.below(self.past.len() as u64) as usize;
        self.receive(number, self.past[place]);
    }

    /// An answer to the request that an end has open, or to what it agreed.
    fn made_answer(&mut self) {
        let first = self.either();
        let request = [first, 1 - first].into_iter().find_map(|number| {
            let end = self.host.end(number)?;
            Some((number, answerable(end)?))
        });
        let Some((number, request)) = request else {
            return self.again();
        };
        let words = self.answer(&request);
        self.receive(number, words);
    }

    fn answer(&mut self, request: &Request) -> Words {
        let random = &mut self.random;
        let (subtype, version) = match random.once_in(2) {
            true => (ACK, fields::acknowledged(request.version, random)),
            false => (NACK, fields::told(request.version, random)),
        };
        let words = Message::version(subtype, request.sid, request.class, version).pack();
        fields::sometimes_changed(words, random)
    }

    /// A request near the versions that an end holds.
    fn made_request(&mut self) {
        let number = self.either();
        let Some(end) = self.host.end(number) else {
            return;
        };
        let (class, held) = (end.accepts(), end.versions().to_vec());
        let version = fields::near(self.random.pick(&held), &mut self.random);
        let sid = self.sid();
        let words = Message::version(INFO, sid, class, version).pack();
        let words = fields::sometimes_changed(words, &mut self.random);
        self.receive(number, words);
    }

    /// Words of any kind, or a message with another tag.
    fn other_message(&mut self) {
        let number = self.either();
        let words = match self.past.back() {
            Some(words) if !self.random.once_in(3) => {
                let words = fields::with_other_tag(*words, &mut self.random);
                fields::with_other_tag(words, &mut self.random)
            }
            _ => [self.random.next(), self.random.next()],
        };
        self.receive(number, words);
    }

    /// One end is set up again, or its versions are refused and it is used.
    fn another_end(&mut self) {
        let number = self.either();
        let good = self.random.once_in(3);
        let call = lists::one(number, good, &mut self.random);
        self.call(call);
        if good {
            return;
        }
        self.state(number);
        self.start(number);
        if self.random.once_in(2) {
            self.again();
        }
        self.receive_oldest(number);
        let call = lists::one(number, true, &mut self.random);
        self.call(call);
    }

    fn look(&mut self) {
        let number = self.either();
        self.state(number);
    }
}

/// The request that an end has open, or one like what it agreed.
fn answerable(end: &End) -> Option<Request> {
    match end.session() {
        Session::Agreed { sid, version } => Some(request(end, sid, version)),
        _ => end.request(),
    }
}

fn request(end: &End, sid: u32, version: Version) -> Request {
    let class = end.class();
    Request {
        sid,
        class,
        version,
    }
}
