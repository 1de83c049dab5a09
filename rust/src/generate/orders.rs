//! Permissions, requests of orders, and taking orders.

use super::random::Random;
use super::Generator;
use crate::build;
use crate::lines::Call;
use crate::order::service::SHUTDOWN_BYTES;
use crate::order::{PANIC, SHUTDOWN};

/// Data for service 2 or 3: a request of either, mostly of its own, or one of
/// another length.
pub fn request(random: &mut Random, service: u64) -> Vec<u8> {
    let any = random.next();
    let number = random.pick(&[0, 1, any >> 40, any, any, u64::MAX]);
    let delay = delay(random);
    let shutdown = (service == SHUTDOWN as u64) != random.once_in(12);
    let mut data = match shutdown {
        true => build::shutdown(number, delay),
        false => build::panic(number),
    };
    match random.weighted(&[70, 25, 5]) {
        0 => {}
        1 => {
            let length = random.up_to(SHUTDOWN_BYTES as u64 + 1) as usize;
            data.resize(length, any as u8);
        }
        _ => {
            let length = random.pick(&[14, 16, 20, 24, 4_088]);
            data.resize(length, any as u8);
        }
    }
    data
}

/// Milliseconds: none, few, the most, or any.
fn delay(random: &mut Random) -> u32 {
    let any = random.next() as u32;
    let few = random.between(1, 1_000) as u32;
    random.pick(&[0, few, few, any, 1 << 31, u32::MAX])
}

/// A service for permit: mostly 2 or 3.
fn permitted_service(random: &mut Random) -> u64 {
    match random.weighted(&[82, 12, 6]) {
        0 => random.between(SHUTDOWN as u64, PANIC as u64),
        1 => random.pick(&[0, 1, 4]),
        _ => random.pick(&[5, 6, 7, 1 << 32 | 2, 1 << 32 | 3, 1 << 63, u64::MAX]),
    }
}

impl Generator {
    /// Permits or denies a service.
    pub(super) fn permit(&mut self) {
        let service = permitted_service(&mut self.random);
        let permitted = !self.random.once_in(3);
        self.call(Call::Permit(service, permitted));
    }

    /// Takes the order that waits; seldom where there is none.
    pub(super) fn take(&mut self) {
        match self.state().orders.waiting.is_some() || self.random.once_in(4) {
            true => self.call(Call::Take),
            false => self.order_request(),
        }
    }

    /// Sends a request where service 2 or 3 is registered, a few shown before.
    pub(super) fn order_request(&mut self) {
        let service = self.random.between(SHUTDOWN as u64, PANIC as u64);
        let Some(live) = self.pick_live(|live| live.registered && live.service == service) else {
            return self.register(service);
        };
        let data = request(&mut self.random, service);
        let message = build::data(live.handle, &data);
        if self.random.once_in(12) {
            self.call(Call::Show(live.channel, message.clone()));
        }
        self.receive(live.channel, message);
    }
}
