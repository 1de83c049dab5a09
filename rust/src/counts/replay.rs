//! A host that is given the calls of the list too, for what the output alone
//! does not tell.

use super::blocks::{self, Empty};
use super::devices::{lists, requests::Requests};
use super::fronts::{self, Fronts};
use super::numbers::{Before, Numbers};
use super::orders;
use super::peers::lists as id_lists;
use super::peers::requests::Ended;
use crate::block::Pair;
use crate::entry::{KIND, SERVICE};
use crate::front::Stage;
use crate::lines::{Call, Host};
use crate::peer::Ids;
use crate::setup;
use crate::state::{CHANNELS, JOURNAL_WORDS};
use crate::wire::get64;

#[derive(Default)]
pub struct Replay {
    host: Host,
    /// The host's answers, which are not kept.
    answer: Vec<u8>,
    numbers: Numbers,
    requests: Requests,
    ended: Ended,
    fronts: Fronts,
    /// Why the state is the empty one, where it is.
    empty: Empty,
}

impl Replay {
    /// Whether devices wait for the next setup.
    pub fn has_devices(&self) -> bool {
        !self.host.devices.is_empty()
    }

    /// Whether ids wait for the next setup.
    pub fn has_ids(&self) -> bool {
        !self.host.ids.is_empty()
    }

    /// Whether a front keeps bytes or drops them.
    pub fn has_front(&self) -> bool {
        self.host.front.stages() != [Stage::EMPTY; CHANNELS]
    }

    /// The receive that a piece makes, if it ends a message.
    pub fn made(&self, call: &Call) -> Option<Call> {
        let Call::Piece(channel, bytes) = call else {
            return None;
        };
        let message = self.host.front.message(*channel, bytes)?;
        Some(Call::Receive(*channel, message))
    }

    /// Whether a record's pair names a block from 16 on. The blocks are those
    /// of the state, which no call but setup moves.
    pub fn is_later_block(&self, record: &[u8]) -> bool {
        let (addr, size) = (get64(record, 0), get64(record, 8));
        let named = self.host.state.blocks.find(Pair { addr, size });
        named.is_some_and(|block| block >= blocks::MORE)
    }

    /// Performs a call; gives the names of what it met at the front, and of
    /// what its numbers, its devices, orders and peers met. A piece stands for
    /// the receive that it makes.
    pub fn call(&mut self, call: &Call) -> Vec<String> {
        let made = self.made(call);
        let front = fronts::Before::of(&self.host, made.as_ref());
        let last = self.host.state.last;
        let mut names = Vec::new();
        if last == 0 {
            names.extend(self.empty.name(call));
        }
        names.extend(self.perform(call, made.as_ref().unwrap_or(call)));
        let added = self.host.state.last > last;
        let kind = added.then(|| KIND.of(self.host.entry(self.host.state.last)[0]));
        let Replay { host, answer, .. } = self;
        names.extend(self.fronts.names(&front, call, kind, host, answer));
        names
    }

    /// Performs a call that stands for another; gives the names of what that
    /// one met.
    fn perform(&mut self, performed: &Call, call: &Call) -> Vec<String> {
        let before = Before::of(&self.host.state);
        let last = self.host.state.last;
        let mut names = match call {
            Call::Setup(words) => self.lists(words),
            _ => Vec::new(),
        };
        let searched = blocks::searches(&self.host.state, call);
        let peers = self.host.state.peers;
        let of_peers = self.ended.names(&self.host.state, call);
        if let Call::Show(..) = call {
            names.extend(of_peers.clone());
        }
        let met = self.requests.names(&self.host.state, call);
        names.extend(orders::shown(&self.host.state, call));
        let of_orders = orders::names(&self.host.state, call);
        let touched = orders::touches(&self.host.state, call);
        let many = blocks::has_many(&self.host.state);
        self.answer.clear();
        self.host.perform(performed, &mut self.answer);
        let state = &self.host.state;
        names.extend(blocks::silent_end(many, call, state, &self.answer));
        if state.last > last {
            names.extend(searched);
            names.extend(of_orders);
            names.extend(of_peers);
            self.ended.note(&peers, &self.host.state.peers);
            names.extend(touched.then(|| self.kept(call)).flatten());
        }
        let received = matches!(call, Call::Receive(..));
        if self.host.state.last > last || !received {
            names.extend(met);
        }
        match *call {
            Call::Setup(_) => {
                self.empty = match self.answer.strip_prefix(b"setup refused ") {
                    Some([digit, ..]) => Empty::Refused((digit - b'0').into()),
                    _ => Empty::default(),
                };
                self.numbers = Numbers::default();
                self.ended = Ended::default();
            }
            Call::Receive(channel, ref message) if self.host.state.last > last => {
                names.extend(self.numbers.received(&before, channel as usize, message));
            }
            _ => {}
        }
        names
    }

    /// The names of what the lists of a setup meet. Without a journal none of
    /// them is looked at.
    fn lists(&self, words: &[u64]) -> Vec<String> {
        let Host { devices, ids, .. } = &self.host;
        if !self.host.lends_journal() {
            let good = setup(words, devices, ids, &mut [0; JOURNAL_WORDS]).is_ok();
            let name = if good { "with good lists" } else { "before 7" };
            return vec![format!("setup refused 1 {name}")];
        }
        let mut names = id_lists::names(words, devices, ids);
        if Ids::from_words(ids).is_some() {
            names.extend(lists::names(words, devices));
        }
        names.push(blocks::list_name(words));
        names
    }

    /// What the order that waits was kept by, after an accepted call.
    fn kept(&self, call: &Call) -> Option<String> {
        let order = self.host.state.orders.waiting?;
        let [first, _] = self.host.entry(self.host.state.last);
        orders::kept(order, call, KIND.of(first), SERVICE.of(first))
    }
}
