//! What a step may do with devices, and a setup with some.

use super::{bad_line, damaged, one, request};
use crate::build;
use crate::generate::random::Random;
use crate::generate::Generator;
use crate::lines::{Call, DeviceLine, PeerLine};
use crate::state::State;

impl Generator {
    /// A setup with these devices and ids. Those of lines among the calls are
    /// mostly taken by a setup before it.
    pub(in crate::generate) fn set_up(
        &mut self,
        blocks: Vec<u64>,
        devices: Vec<DeviceLine>,
        ids: Vec<PeerLine>,
    ) {
        let waiting = !self.host.devices.is_empty() || !self.host.ids.is_empty();
        if waiting && !self.random.once_in(4) {
            self.call(Call::Setup(Vec::new()));
        }
        for device in devices {
            self.call(Call::Device(device));
        }
        for id in ids {
            self.call(Call::Peer(id));
        }
        if self.random.once_in(30) {
            // A bad line leaves the devices and ids for the setup that follows.
            let line = self.random.pick(&["setup ", "setup x", "setup 0 1  0 0 0"]);
            self.raw(line.as_bytes());
        }
        self.call(Call::Setup(blocks));
    }

    /// A number for a device request: higher than the last one, the same, lower
    /// or any.
    fn device_number(&mut self) -> u64 {
        let (last, any) = (self.device_number, self.random.next());
        let number = match self.random.weighted(&[60, 15, 10, 5, 10]) {
            0 => last.wrapping_add(1),
            1 => last,
            2 => last.saturating_sub(1),
            3 => self.random.pick(&[0, u64::MAX]),
            _ => any >> self.random.below(64),
        };
        self.device_number = number;
        number
    }

    /// Sends a device message where `dr-vio` is registered, a few shown before.
    fn send_device(&mut self, make: fn(&mut Random, &State, u64) -> Vec<u8>) {
        let Some(live) = self.pick_live(|live| live.registered && live.service == 1) else {
            return self.register(1);
        };
        let number = self.device_number();
        let message = make(&mut self.random, &self.host.state, number);
        let message = build::data(live.handle, &message);
        if self.random.once_in(12) {
            self.call(Call::Show(live.channel, message.clone()));
        }
        self.receive(live.channel, message);
    }

    pub(in crate::generate) fn device(&mut self) {
        self.send_device(request);
    }

    pub(in crate::generate) fn damaged_device(&mut self) {
        self.send_device(damaged);
    }

    /// A line for a device among the calls: mostly a bad line, else a device
    /// for the next setup.
    pub(in crate::generate) fn odd_device_line(&mut self) {
        if self.random.once_in(20) {
            let device = one(&mut self.random);
            return self.call(Call::Device(device));
        }
        let line = bad_line(&mut self.random);
        self.raw(&line);
    }
}
