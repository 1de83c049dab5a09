//! Permissions and orders: sound ones, changes of one thing in them, and
//! requests.

use independent::generate::random::Random;
use independent::order::MAX_DELAY;
use independent::{build, Order, Orders};

/// Permissions, and an order of either kind or none.
pub fn sound(random: &mut Random) -> Orders {
    let delay = delay(random);
    let shutdown = Order::Shutdown { delay };
    let waiting = [None, None, None, Some(shutdown), Some(Order::Panic)];
    Orders {
        permitted: [(); 2].map(|()| !random.once_in(3)),
        waiting: random.pick(&waiting),
    }
}

/// A delay of 32 bits.
fn delay(random: &mut Random) -> u64 {
    let any = random.up_to(MAX_DELAY);
    random.pick(&[0, 1, 1_000, any, any, MAX_DELAY - 1, MAX_DELAY])
}

/// Changes a permission, or the order to one with a delay at or past its bound.
pub fn change(random: &mut Random, orders: &mut Orders) {
    let past = random.next() | 1 << 32;
    let delay = random.pick(&[0, MAX_DELAY, 1 << 32, 1 << 32, 1 << 63, past, u64::MAX]);
    match random.below(6) {
        0 => orders.permitted[random.below(2) as usize] ^= true,
        1 => orders.waiting = random.pick(&[None, Some(Order::Panic)]),
        _ => orders.waiting = Some(Order::Shutdown { delay }),
    }
}

/// A request of service 2 or 3; one in three has a length that is its own only
/// by chance.
pub fn message(random: &mut Random, service: usize) -> Vec<u8> {
    let any = random.next();
    let number = random.pick(&[0, 9, any, any, u64::MAX]);
    let mut message = match service {
        2 => build::shutdown(number, delay(random) as u32),
        _ => build::panic(number),
    };
    if random.once_in(3) {
        let few = random.up_to(13) as usize;
        message.resize(
            random.pick(&[few, few, few, few, 7, 8, 12, 16, 4_088]),
            any as u8,
        );
    }
    message
}
