//! Around 256 open calls, around 1,024 function ids, or both.

use super::maker::Maker;
use super::nesting::any_size;
use crate::random::Random;
use second::order::Order;
use second::replay::{DEEPEST, ROWS};

pub fn deep(random: &mut Random, order: Order) -> Vec<u8> {
    let size = any_size(random);
    let ids = 1 + random.index(20);
    let mut maker = Maker::with_ids(random, order, size, ids);
    let depth = DEEPEST - 2 + maker.random.index(4);
    maker.climb(depth);
    for _ in 0..maker.random.below(8) {
        match maker.random.below(8) {
            0 | 1 => maker.leave_open(),
            2 => maker.leave_first(),
            3 => maker.event(),
            4 => maker.turn(),
            _ => maker.enter_known(),
        }
    }
    maker.finish()
}

/// A buffer size for a log of many records.
fn roomy_size(random: &mut Random) -> Option<usize> {
    match random.below(3) {
        0 => None,
        _ => Some(400 + random.index(6000)),
    }
}

/// The depth that a wide log keeps to.
fn any_depth(random: &mut Random) -> usize {
    let any = 2 + random.index(200);
    random.one_of(&[1, 2, any, DEEPEST - 1, DEEPEST])
}

pub fn wide(random: &mut Random, order: Order) -> Vec<u8> {
    let size = roomy_size(random);
    let mut maker = Maker::new(random, order, size);
    let deepest = any_depth(maker.random);
    let ids = ROWS - 4 + maker.random.index(7);
    maker.widen(ids, deepest);
    for _ in 0..maker.random.below(12) {
        if maker.stack.len() < deepest && !maker.random.once_in(3) {
            maker.enter_known();
        } else {
            maker.leave_open();
        }
    }
    maker.finish()
}

/// A maker with this many ids, more than 256, and this many open calls.
pub fn wide_maker(random: &mut Random, order: Order, ids: usize, depth: usize) -> Maker<'_> {
    let size = roomy_size(random);
    let deepest = any_depth(random).min(DEEPEST - 1);
    let mut maker = Maker::new(random, order, size);
    let before = ids - maker.random.index(depth + 1);
    maker.widen(before, deepest);
    while !maker.stack.is_empty() {
        maker.leave_first();
    }
    while maker.stack.len() < depth {
        let left = depth - maker.stack.len();
        let missing = ids - maker.ids.len();
        if missing > 0 && (left <= missing || maker.random.once_in(2)) {
            maker.enter_fresh();
        } else {
            maker.enter_known();
        }
    }
    maker
}

pub fn deep_and_wide(random: &mut Random, order: Order) -> Vec<u8> {
    let ids = ROWS - random.index(2);
    let depth = DEEPEST - random.index(2);
    let mut maker = wide_maker(random, order, ids, depth);
    for _ in 0..maker.random.below(6) {
        match maker.random.below(6) {
            0 => maker.leave_open(),
            1 => maker.leave_first(),
            2 | 3 => maker.enter_known(),
            _ => maker.enter_fresh(),
        }
    }
    maker.finish()
}
