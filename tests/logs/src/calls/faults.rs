//! Exits that find no open call, and two faults at one record.

use super::clocks::past_the_top;
use super::limits::wide_maker;
use super::maker::{Maker, LEAST};
use super::nesting::any_size;
use crate::generate::{encode, first_byte};
use crate::random::Random;
use second::order::Order;
use second::record::Record;
use second::replay::{DEEPEST, ROWS};

/// An id that isn't open: one that was, a fresh one, or one that differs from
/// an open one in a single bit.
fn not_open(maker: &mut Maker) -> u32 {
    let near = maker.stack.last().copied().unwrap_or(0);
    let id = match maker.random.below(3) {
        0 => maker.known(),
        1 => near ^ (1 << maker.random.below(28)),
        _ => maker.fresh(),
    };
    if maker.stack.contains(&id) {
        return maker.fresh();
    }
    id
}

pub fn no_entry(random: &mut Random, order: Order) -> Vec<u8> {
    let size = any_size(random);
    let ids = 1 + random.index(8);
    let mut maker = Maker::with_ids(random, order, size, ids);
    for _ in 0..maker.random.below(60) {
        maker.act(20);
    }
    if maker.random.once_in(3) {
        maker.leave_first();
    }
    let (id, delta) = (not_open(&mut maker), maker.delta());
    maker.leave(id, delta);
    for _ in 0..maker.random.below(10) {
        maker.act(20);
    }
    maker.finish()
}

pub fn wide_no_entry(random: &mut Random, order: Order) -> Vec<u8> {
    let ids = ROWS - random.index(3);
    let depth = random.one_of(&[0, 1, 20, DEEPEST - 1, DEEPEST]);
    let mut maker = wide_maker(random, order, ids, depth);
    let (id, delta) = (not_open(&mut maker), maker.delta());
    maker.leave(id, delta);
    maker.finish()
}

/// Two faults at one record; one of them is mostly 9.
pub fn two_faults(random: &mut Random, order: Order) -> Vec<u8> {
    match random.below(24) {
        0 => {
            let depth = DEEPEST - random.index(2);
            let mut maker = wide_maker(random, order, ROWS, depth);
            let delta = past_the_top(&mut maker);
            let id = maker.fresh();
            maker.enter(id, delta);
            maker.finish()
        }
        1..=6 => {
            let size = any_size(random);
            let mut maker = Maker::with_ids(random, order, size, 3);
            maker.climb(DEEPEST);
            let delta = past_the_top(&mut maker);
            let id = maker.known();
            maker.enter(id, delta);
            maker.finish()
        }
        7..=12 => exit_faults(random, order),
        13..=16 => record_faults(random, order),
        _ => leading_faults(random, order),
    }
}

/// 9 with 10, or an exit that finds no open call of an id with the most ticks.
fn exit_faults(random: &mut Random, order: Order) -> Vec<u8> {
    let size = any_size(random);
    let mut maker = Maker::with_ids(random, order, size, 3);
    let id = maker.ids[0];
    maker.measured(id, u64::MAX);
    if maker.random.once_in(2) {
        maker.set_clock(5);
        maker.leave(id, 7);
    } else {
        let delta = past_the_top(&mut maker);
        let id = not_open(&mut maker);
        maker.leave(id, delta);
    }
    maker.finish()
}

/// A function record past 2^64 - 1 that also has an unknown action or runs
/// past its buffer's end.
fn record_faults(random: &mut Random, order: Order) -> Vec<u8> {
    let mut maker = Maker::with_ids(random, order, None, 3);
    maker.enter_known();
    let delta = past_the_top(&mut maker);
    let id = maker.known();
    let action = maker.random.below(4) as u8;
    maker.function(action, id, delta);
    let at = maker.log.len() - 8;
    if maker.random.once_in(2) {
        maker.log[at] |= first_byte(order, 8);
        return maker.finish();
    }
    maker.log.truncate(at + 1 + maker.random.index(7));
    maker.cut()
}

/// A function record past 2^64 - 1 in place of a leading one.
fn leading_faults(random: &mut Random, order: Order) -> Vec<u8> {
    let size = Some(LEAST + random.index(100));
    let mut maker = Maker::with_ids(random, order, size, 3);
    maker.enter_known();
    let delta = past_the_top(&mut maker);
    maker.turn();
    let record = Record::Function {
        action: maker.random.below(4) as u8,
        id: maker.known(),
        delta,
    };
    let bytes = encode(maker.random, order, record);
    let at = maker.start + 16 * maker.random.index(3);
    maker.log[at..at + 8].copy_from_slice(&bytes);
    maker.finish()
}
