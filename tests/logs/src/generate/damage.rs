//! Logs damaged: cut, changed, with another thread or a wrong header, and bytes
//! that were never a log.

use super::buffer::Buffer;
use super::bytes::{any_bytes, first_byte, header, number};
use super::records::any_record;
use super::sound::{good_buffer, good_log, plan, well_formed, Plan};
use crate::random::Random;
use second::header;
use second::order::Order;

pub fn truncated(random: &mut Random, order: Order) -> Vec<u8> {
    let plan = plan(random, 64, 1);
    let mut log = good_log(random, order, &plan);
    log.truncate(random.index(log.len()));
    if log.len() >= header::SIZE && !random.once_in(3) {
        let following = (log.len() - header::SIZE) as u64;
        log[16..24].copy_from_slice(&number(order, following, 8));
    }
    log
}

pub fn mutated(random: &mut Random, order: Order) -> Vec<u8> {
    let plan = plan(random, 64, 1);
    let mut log = good_log(random, order, &plan);
    for _ in 0..1 + random.index(6) {
        // The header is short; most changes are wanted behind it.
        let place = match random.below(8) {
            0 => random.index(header::SIZE),
            _ => header::SIZE + random.index(log.len() - header::SIZE),
        };
        log[place] = match random.below(3) {
            0 => log[place] ^ (1 << random.below(8)),
            1 => first_byte(order, random.below(16) as u8),
            _ => random.number() as u8,
        };
    }
    log
}

pub fn other_thread(random: &mut Random, order: Order) -> Vec<u8> {
    let plan = plan(random, 64, 2);
    let at = 1 + random.index(plan.buffers - 1);
    let other = match random.below(3) {
        0 => plan.thread ^ (1 << random.below(16)),
        1 => plan.thread.swap_bytes(),
        _ => random.number() as u16,
    };
    let mut log = header(random, order, plan.size as u64);
    for index in 0..plan.buffers {
        let thread = if index == at { other } else { plan.thread };
        log.extend(good_buffer(random, order, plan.size, thread));
    }
    log
}

/// A log with another number than 1 in the two bytes at `place`; at times with
/// a later fault in its header too.
pub fn wrong_number(random: &mut Random, order: Order, place: usize) -> Vec<u8> {
    let mut log = well_formed(random, order);
    let wrong = match random.below(4) {
        0 => random.one_of(&[0, 2, 3, 0x0100, 0x0101, 0xFFFF]),
        _ => random.number() as u16,
    };
    log[place..place + 2].copy_from_slice(&number(order, wrong.into(), 2));
    if random.once_in(3) {
        log.push(0);
    }
    if random.once_in(4) {
        log[2..4].fill(0);
    }
    log
}

pub fn wrong_size(random: &mut Random, order: Order) -> Vec<u8> {
    let plan = plan(random, 64, 1);
    let mut log = good_log(random, order, &plan);
    let size = plan.size as u64;
    let following = (log.len() - header::SIZE) as u64;
    let wrong = match random.below(8) {
        0 => random.below(64),
        1 => size + 1,
        2 => size - 1,
        3 => following * 2,
        4 => size | (1 << (32 + random.below(32))),
        5 => following,
        6 => {
            // A size of 63 that does divide.
            log.truncate(header::SIZE + 63);
            63
        }
        _ => random.value(),
    };
    log[16..24].copy_from_slice(&number(order, wrong, 8));
    log
}

pub fn garbage(random: &mut Random, order: Order) -> Vec<u8> {
    let length = random.index(600);
    any_bytes(random, order, length)
}

pub fn garbage_body(random: &mut Random, order: Order) -> Vec<u8> {
    let plan = plan(random, 64, 1);
    let mut log = header(random, order, plan.size as u64);
    for _ in 0..plan.buffers {
        let mut buffer = Buffer::new(random, order, plan.size);
        if !buffer.random.once_in(4) {
            buffer.leading(plan.thread);
        }
        if buffer.random.once_in(2) {
            while buffer.room() > 0 {
                let record = any_record(buffer.random);
                buffer.put(record);
            }
        } else {
            let bytes = any_bytes(buffer.random, order, buffer.room());
            buffer.bytes.extend(bytes);
        }
        log.extend(buffer.rest());
    }
    log
}

pub fn short(random: &mut Random, order: Order) -> Vec<u8> {
    let length = random.index(41);
    let mut log = match random.below(3) {
        0 => random.bytes(length),
        _ => good_log(
            random,
            order,
            &Plan {
                size: 64,
                buffers: 1,
                thread: 7,
            },
        ),
    };
    log.truncate(length);
    log
}
