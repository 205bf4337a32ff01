//! Clocks and sums of ticks near 2^64, and clocks that are set back.

use super::maker::Maker;
use super::nesting::any_size;
use crate::random::Random;
use second::order::Order;

/// A reading from which a delta can just reach 2^64 - 1.
fn high_reading(random: &mut Random) -> u64 {
    match random.below(6) {
        0 => u64::MAX,
        1 => u64::MAX - random.below(4),
        2 => u64::MAX - u64::from(u32::MAX) + random.below(4),
        3 => u64::MAX - u64::from(u32::MAX) - random.below(4),
        4 => (1 << 63) - random.below(4),
        _ => u64::MAX - random.below(1 << 32),
    }
}

pub fn high_clock(random: &mut Random, order: Order) -> Vec<u8> {
    let size = any_size(random);
    let mut maker = Maker::with_ids(random, order, size, 4);
    for _ in 0..1 + maker.random.below(12) {
        let reading = high_reading(maker.random);
        maker.set_clock(reading);
        for _ in 0..maker.random.below(5) {
            let left = u64::MAX - maker.clock;
            let delta = match maker.random.below(40) {
                0 => left.saturating_add(1),
                1..=8 => left,
                9..=12 => left.saturating_sub(1),
                13..=20 => 0,
                21 => maker.random.below(1 << 32),
                _ => maker.random.below(left.min(1000) + 1),
            };
            let delta = delta.min(u64::from(u32::MAX)) as u32;
            match maker.stack.last().copied() {
                Some(id) if maker.random.once_in(2) => maker.leave(id, delta),
                _ => {
                    let id = maker.known();
                    maker.enter(id, delta);
                }
            }
        }
    }
    maker.finish()
}

/// A delta that takes the clock past 2^64 - 1 from a reading just set.
pub fn past_the_top(maker: &mut Maker) -> u32 {
    let below = maker.random.below(3);
    maker.set_clock(u64::MAX - below);
    below as u32 + 1 + maker.random.below(3) as u32
}

pub fn tick_sum(random: &mut Random, order: Order) -> Vec<u8> {
    let size = any_size(random);
    let mut maker = Maker::with_ids(random, order, size, 4);
    let id = maker.ids[0];
    // From 2^64 - 3 to 2^64 + 2.
    let mut left = u128::from(u64::MAX) - 2 + u128::from(maker.random.below(6));
    let most = 1 + maker.random.index(5);
    for calls in (0..most).rev() {
        let part = u64::try_from(left).unwrap_or(u64::MAX);
        let ticks = match calls {
            0 => part,
            _ => part >> (1 + maker.random.below(40)),
        };
        beside_sum(&mut maker);
        if maker.random.once_in(3) {
            let below = maker.ids[1];
            maker.measured_above(id, below, ticks);
        } else {
            maker.measured(id, ticks);
        }
        left -= u128::from(ticks);
    }
    for _ in 0..maker.random.below(5) {
        beside_sum(&mut maker);
        let ticks = maker.random.below(4).saturating_sub(2);
        maker.measured(id, ticks);
    }
    if left > 0 {
        maker.measured(id, left as u64);
    }
    maker.finish()
}

/// What adds nothing to the sum of the first id: a huge call of another one,
/// or a backward call.
fn beside_sum(maker: &mut Maker) {
    match maker.random.below(5) {
        0 => {
            let other = maker.ids[1 + maker.random.index(3)];
            let ticks = maker.random.value() / 2;
            maker.measured(other, ticks);
        }
        1 => {
            let id = maker.ids[0];
            let reading = 1 + maker.random.below(u64::MAX);
            maker.set_clock(reading);
            maker.enter(id, 0);
            let before = reading - 1 - maker.random.below(3).min(reading - 1);
            maker.set_clock(before);
            maker.leave(id, 0);
        }
        _ => {}
    }
}

pub fn backward(random: &mut Random, order: Order) -> Vec<u8> {
    let size = any_size(random);
    let mut maker = Maker::with_ids(random, order, size, 3);
    let base = maker
        .random
        .one_of(&[2, 1000, 1 << 32, 1 << 63, u64::MAX - 50]);
    maker.set_clock(base);
    for _ in 0..maker.random.below(50) {
        let delta = maker.random.below(3) as u32;
        match maker.random.below(8) {
            0..=2 => {
                let id = maker.known();
                maker.enter(id, delta);
            }
            3..=5 => {
                if let Some(id) = maker.stack.last().copied() {
                    maker.leave(id, delta);
                }
            }
            6 => maker.leave_first(),
            _ => {
                let reading = base - 2 + maker.random.below(5);
                maker.set_clock(reading);
            }
        }
    }
    maker.finish()
}
