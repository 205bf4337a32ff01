//! Well-formed logs.

use super::buffer::Buffer;
use super::bytes::header;
use crate::random::Random;
use second::header;
use second::order::Order;

/// The sizes and the thread of a log to come.
pub struct Plan {
    pub size: usize,
    pub buffers: usize,
    pub thread: u16,
}

/// A plan with buffers of at least `least` bytes, mostly for a short log.
pub fn plan(random: &mut Random, least: usize, fewest: usize) -> Plan {
    let size = match random.below(24) {
        0..=4 => least,
        5..=12 => least + random.index(64),
        13..=22 => least + random.index(400),
        _ => least + random.index(4000),
    };
    let most = (1500 / size).clamp(1, 6);
    Plan {
        size,
        buffers: fewest + random.index(most + 1),
        thread: random.number() as u16,
    }
}

/// A number of records: few, or as many as fit.
pub fn amount(random: &mut Random) -> u64 {
    match random.below(3) {
        0 => 20_000,
        _ => random.below(24),
    }
}

pub fn good_buffer(random: &mut Random, order: Order, size: usize, thread: u16) -> Vec<u8> {
    let most = amount(random);
    let mut buffer = Buffer::new(random, order, size);
    buffer.leading(thread);
    buffer.body(most, 16);
    buffer.close()
}

pub fn good_log(random: &mut Random, order: Order, plan: &Plan) -> Vec<u8> {
    let mut log = header(random, order, plan.size as u64);
    for _ in 0..plan.buffers {
        log.extend(good_buffer(random, order, plan.size, plan.thread));
    }
    log
}

pub fn well_formed(random: &mut Random, order: Order) -> Vec<u8> {
    let plan = plan(random, 64, 0);
    good_log(random, order, &plan)
}

pub fn bare(random: &mut Random, order: Order) -> Vec<u8> {
    let size = random.value();
    header(random, order, size)
}

pub fn large(random: &mut Random, order: Order) -> Vec<u8> {
    let size = 4096 + random.index(200_000);
    let plan = Plan {
        size,
        buffers: 1 + random.index((1 << 20) / size),
        thread: random.number() as u16,
    };
    let mut log = good_log(random, order, &plan);
    if random.once_in(2) {
        let place = random.index(log.len());
        log[place] = random.number() as u8;
    }
    log
}

/// Logs at the greatest length, which is 32 more than 32 times 524,287.
pub fn limit(random: &mut Random, order: Order, seed: u64) -> Vec<u8> {
    let following = header::LONGEST - header::SIZE;
    let (size, buffers) = match seed % 3 {
        0 => (following, 1),
        1 => (following / 32, 32),
        _ => (following + 1, 1),
    };
    let mut log = header(random, order, size as u64);
    for index in 0..buffers {
        let mut buffer = Buffer::new(random, order, size);
        buffer.leading(7);
        buffer.body(100, 32);
        if index == 0 {
            buffer.pad(16);
        }
        log.extend(buffer.close());
    }
    log
}
