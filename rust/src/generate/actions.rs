//! What a step may do.

use super::messages::{self, Live};
use super::peers;
use super::random::Random;
use super::Generator;
use crate::block::PAGE;
use crate::lines::Call;
use crate::removal::{Removal, MAX_BUDGET};
use crate::state::{Service, State, SERVICES, SLOTS};
use crate::{build, memory, wire};

/// An action, its weight, and whether it tends to undo what was built up.
type Action = (fn(&mut Generator), u64, bool);

pub(super) const ACTIONS: [Action; 41] = [
    (Generator::prepare, 30, false),
    (Generator::prepare_memory, 20, false),
    (Generator::good_memory, 30, false),
    (Generator::bad_memory, 6, false),
    (Generator::removal, 60, false),
    (Generator::long_removal, 4, false),
    (Generator::device, 30, false),
    (Generator::damaged_device, 8, false),
    (Generator::odd_device_line, 1, false),
    (Generator::order_request, 24, false),
    (Generator::permit, 10, false),
    (Generator::take, 6, false),
    (Generator::host_data, 8, false),
    (Generator::show, 4, false),
    (Generator::stray_data, 4, false),
    (Generator::noted, 4, false),
    (Generator::peer_register, 24, false),
    (Generator::peer_fill, 2, false),
    (Generator::peer_data, 12, false),
    (Generator::peer_unreg, 6, false),
    (Generator::peer_stray, 8, false),
    (Generator::peer_drop, 2, true),
    (Generator::odd_peer_line, 1, false),
    (Generator::reg_req, 2, false),
    (Generator::registration, 5, true),
    (Generator::offer, 5, false),
    (Generator::withdraw, 3, true),
    (Generator::unreg, 4, true),
    (Generator::initiate, 2, true),
    (Generator::close, 2, true),
    (Generator::damaged, 3, true),
    (Generator::out_of_range, 3, false),
    (Generator::any_message, 3, true),
    (Generator::disturb, 2, true),
    (Generator::stream, 12, false),
    (Generator::full_stream, 3, false),
    (Generator::cut_message, 5, false),
    (Generator::dropping, 2, true),
    (Generator::every_front, 1, false),
    (Generator::reopen, 3, false),
    (Generator::odd_piece_line, 2, false),
];

impl Generator {
    fn channel(&mut self) -> u64 {
        messages::channel(&mut self.random)
    }

    fn service(&mut self) -> u64 {
        self.random.below(SERVICES as u64)
    }

    fn handle(&mut self, channel: u64) -> u64 {
        messages::handle(&mut self.random, &self.host.state, channel)
    }

    pub(super) fn pick_live(&mut self, fits: impl Fn(&Live) -> bool) -> Option<Live> {
        messages::pick_live(&mut self.random, &self.host.state, fits)
    }

    /// Where `dr-mem` is registered, if anywhere.
    fn memory_place(&mut self) -> Option<Live> {
        self.pick_live(|live| live.registered && live.service == 0)
    }

    /// The next step towards a registered service; false if it is one.
    fn towards(&mut self, channel: u64, service: u64) -> bool {
        let place = self.state().channels[channel as usize];
        match place.services[service as usize] {
            _ if !place.ready => {
                let minor = self.random.pick(&[0, 0, 1, 9]);
                self.receive(channel, build::init_req(1, minor));
            }
            Service::Idle => self.call(Call::Offer(channel, service)),
            Service::Offered { handle } => {
                let minor = self.random.pick(&[0, 0, 1, 0x8000, 0xffff]);
                self.receive(channel, build::reg_ack(handle, minor));
            }
            Service::Registered { .. } => return false,
        }
        true
    }

    fn prepare(&mut self) {
        let (channel, service) = (self.channel(), self.service());
        self.towards(channel, service);
    }

    /// Registers `dr-mem` on a channel, step by step.
    fn prepare_memory(&mut self) {
        self.register(0);
    }

    /// Registers a service on a channel, step by step.
    pub(super) fn register(&mut self, service: u64) {
        let channel = self.channel();
        for _ in 0..3 {
            self.towards(channel, service);
        }
    }

    /// Sends a memory message where `dr-mem` is registered, or begins a
    /// registration anew whose request numbers are used up.
    fn send_memory(&mut self, make: impl FnOnce(&mut Random, &State, u64) -> Vec<u8>) {
        let Some(live) = self.memory_place() else {
            return self.prepare_memory();
        };
        let used_up = self.state().highest[live.channel as usize] == Some(u64::MAX);
        if used_up && self.random.once_in(2) {
            self.call(Call::Withdraw(live.channel, 0));
            for _ in 0..2 {
                self.towards(live.channel, 0);
            }
            return;
        }
        let message = make(&mut self.random, &self.host.state, live.channel);
        self.receive(live.channel, build::data(live.handle, &message));
    }

    fn request(&mut self, memory_type: u32) {
        self.send_memory(|random, state, channel| {
            messages::request(random, state, channel, memory_type)
        });
    }

    fn good_memory(&mut self) {
        self.send_memory(messages::good_memory);
    }

    fn bad_memory(&mut self) {
        self.send_memory(messages::bad_memory);
    }

    /// Begins a removal, or does something to the one outstanding.
    fn removal(&mut self) {
        if self.state().removal.is_none() {
            if self.random.once_in(40) {
                let budget = self.budget();
                self.call(Call::Work(budget));
            }
            let blocks = self.state().blocks.listed().iter();
            let idle = blocks.filter(|block| !block.configured).count() as u64;
            let configure = self.random.below(self.state().blocks.count as u64 + 1) < idle;
            return self.request(if configure {
                memory::CONFIGURE
            } else {
                memory::UNCONFIGURE
            });
        }
        let many = self
            .state()
            .removal
            .is_some_and(|removal| removal.count > 16);
        if many && self.random.once_in(2) {
            return self.work_on();
        }
        match self.random.weighted(&[75, 6, 5, 5, 4, 2, 3]) {
            0 => {
                let budget = self.budget();
                self.call(Call::Work(budget));
            }
            1 => self.request(memory::UNCONF_STATUS),
            2 => self.request(memory::CANCEL),
            3 => self.request(memory::CONFIGURE),
            4 => self.request(memory::UNCONFIGURE),
            5 => self.request(memory::QUERY),
            _ => self.disturb(),
        }
    }

    /// Begins a removal of 17 to 64 records and does its first steps.
    fn long_removal(&mut self) {
        if self.state().removal.is_none() {
            self.send_memory(messages::long_removal);
        }
        self.work_on();
    }

    /// Many steps of a removal of many records; a full journal is drained.
    fn work_on(&mut self) {
        for _ in 0..self.random.between(8, 70) {
            let Some(removal) = self.state().removal else {
                return;
            };
            if self.calls >= self.stop {
                return;
            }
            if removal.position == removal.count && self.random.once_in(2) {
                self.request(memory::UNCONF_STATUS);
            }
            if self.state().held == SLOTS {
                let words = self.random.pick(&[64, 128, 256]);
                self.call(Call::Drain(words));
            }
            let budget = match self.random.once_in(4) {
                true => self.budget(),
                false => MAX_BUDGET,
            };
            self.call(Call::Work(budget));
        }
        self.look_in();
    }

    /// Asks for a removal that is far on, and cancels some of them.
    fn look_in(&mut self) {
        let later = |removal: &Removal| removal.count > 16 && removal.position > 16;
        if !self.state().removal.as_ref().is_some_and(later) {
            return;
        }
        if self.random.once_in(3) {
            self.request(memory::CANCEL);
        }
        if self.random.once_in(2) {
            self.request(memory::UNCONF_STATUS);
        }
    }

    /// A budget for work: small, what remains or about that, or the most.
    fn budget(&mut self) -> u64 {
        let state = &self.host.state;
        let remaining = state.removal.and_then(|removal| {
            let pages = removal.current()?.size / PAGE;
            pages.checked_sub(removal.collected)
        });
        let remaining = remaining.unwrap_or(1).clamp(1, MAX_BUDGET);
        match self.random.weighted(&[20, 10, 30, 8, 8, 20, 4, 2]) {
            0 => 1,
            1 => self.random.between(2, 5),
            2 => remaining,
            3 => remaining.saturating_sub(1).max(1),
            4 => (remaining + 1).min(MAX_BUDGET),
            5 => MAX_BUDGET,
            6 => self.random.between(1, MAX_BUDGET),
            _ => self
                .random
                .pick(&[0, 65_536, 65_537, 1 << 32 | 1, u64::MAX]),
        }
    }

    /// Takes the handle of the removal, or of any `dr-mem`, away, and half of
    /// the time registers a newer one.
    fn disturb(&mut self) {
        let of_removal = self.state().removal.map(|removal| removal.channel);
        let channel = of_removal.unwrap_or_else(|| self.channel());
        let handle = self.state().channels[channel as usize].services[0].handle();
        match self.random.below(5) {
            0 => self.call(Call::Close(channel)),
            1 => self.receive(channel, build::init_req(1, 0)),
            2 => self.call(Call::Withdraw(channel, 0)),
            3 => self.receive(channel, build::of_handle(wire::UNREG, handle.unwrap_or(1))),
            _ => {
                let message = messages::damaged(&mut self.random, &self.host.state, channel);
                self.receive(channel, message);
            }
        }
        if self.random.once_in(2) {
            for _ in 0..3 {
                self.towards(channel, 0);
            }
        }
    }

    /// Any data for a service other than `dr-mem`, half of it shown before.
    fn host_data(&mut self) {
        let Some(live) = self.pick_live(|live| live.registered && live.service > 0) else {
            return self.prepare();
        };
        let data = messages::host_data(&mut self.random);
        let message = build::data(live.handle, &data);
        if self.random.once_in(2) {
            self.call(Call::Show(live.channel, message.clone()));
        }
        self.receive(live.channel, message);
    }

    fn show(&mut self) {
        let registered = self.pick_live(|live| live.registered);
        let channel = match registered {
            Some(live) if !self.random.once_in(3) => live.channel,
            _ => self.random.pick(&[0, 1, 2, 3, 4, 1 << 32, u64::MAX]),
        };
        let message = match (registered, self.random.weighted(&[50, 25, 25])) {
            (Some(live), 0) => build::data(live.handle, &messages::host_data(&mut self.random)),
            (_, 1) => messages::damaged(&mut self.random, &self.host.state, channel),
            _ => messages::any(&mut self.random, &self.host.state, channel),
        };
        self.call(Call::Show(channel, message));
    }

    /// DATA under a handle that is mostly not registered here.
    fn stray_data(&mut self) {
        let channel = self.channel();
        let handle = self.handle(channel);
        let message = match self.random.once_in(2) {
            true => messages::host_data(&mut self.random),
            false => messages::good_memory(&mut self.random, &self.host.state, channel),
        };
        self.receive(channel, build::data(handle, &message));
    }

    fn noted(&mut self) {
        let channel = self.channel();
        let handle = self.handle(channel);
        let message = messages::noted(&mut self.random, handle);
        self.receive(channel, message);
    }

    fn reg_req(&mut self) {
        let channel = self.channel();
        let message = peers::reg_req(&mut self.random, &self.host.state, channel);
        self.receive(channel, message);
    }

    /// REG_ACK or REG_NACK, half of them for an offered handle.
    fn registration(&mut self) {
        let offered = self.pick_live(|live| !live.registered);
        let (channel, handle) = match offered {
            Some(live) if self.random.once_in(2) => (live.channel, live.handle),
            _ => {
                let channel = self.channel();
                (channel, self.handle(channel))
            }
        };
        let message = messages::registration(&mut self.random, handle);
        self.receive(channel, message);
    }

    fn offer(&mut self) {
        let (channel, service) = (self.channel(), self.service());
        self.call(Call::Offer(channel, service));
    }

    fn withdraw(&mut self) {
        let (channel, service) = match self.pick_live(|_| true) {
            Some(live) if self.random.once_in(2) => (live.channel, live.service),
            _ => (self.channel(), self.service()),
        };
        self.call(Call::Withdraw(channel, service));
    }

    fn unreg(&mut self) {
        let channel = self.channel();
        let handle = self.handle(channel);
        self.receive(channel, build::of_handle(wire::UNREG, handle));
    }

    fn initiate(&mut self) {
        let channel = self.channel();
        let message = messages::init_req(&mut self.random);
        self.receive(channel, message);
    }

    fn close(&mut self) {
        let channel = self.channel();
        self.call(Call::Close(channel));
    }

    fn damaged(&mut self) {
        let channel = self.channel();
        let message = messages::damaged(&mut self.random, &self.host.state, channel);
        self.receive(channel, message);
    }

    fn any_message(&mut self) {
        let channel = self.channel();
        let message = messages::any(&mut self.random, &self.host.state, channel);
        self.receive(channel, message);
    }

    /// Any of the ten calls that a state, a full journal or a size may refuse,
    /// each as often as the others.
    pub(super) fn each_call(&mut self) {
        match self.random.below(10) {
            0 => self.any_message(),
            1 => self.offer(),
            2 => self.withdraw(),
            3 => self.close(),
            4 => {
                let budget = self.budget();
                self.call(Call::Work(budget));
            }
            5 => self.permit(),
            6 => self.call(Call::Take),
            7 => self.any_piece(),
            8 => self.reopen(),
            _ => self.call(Call::Drain(2)),
        }
    }

    /// A channel, service or budget that the agent must refuse.
    fn out_of_range(&mut self) {
        let high = self.random.next() | 1 << 33;
        let bad = self
            .random
            .pick(&[4, 4, 5, 7, 256, 1 << 32, 1 << 32 | 2, u64::MAX, high]);
        let good = self.channel();
        let call = match self.random.below(10) {
            0 => Call::Receive(bad, messages::init_req(&mut self.random)),
            1 => Call::Offer(bad, good),
            2 => Call::Offer(good, bad),
            3 => Call::Withdraw(bad, good),
            4 => Call::Withdraw(good, bad),
            5 => Call::Close(bad),
            6 => Call::Permit(self.random.pick(&[bad, 0, 1]), self.random.once_in(2)),
            7 => Call::Piece(bad, messages::init_req(&mut self.random)),
            8 => Call::Reopen(bad),
            _ => Call::Work(
                self.random
                    .pick(&[0, 0, 65_536, 65_537, 1 << 32 | 1, u64::MAX]),
            ),
        };
        self.call(call);
    }
}
