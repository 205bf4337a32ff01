//! Calls that nest, and are abandoned, in logs of a few KiB.

use super::maker::{Maker, LEAST};
use crate::random::Random;
use second::order::Order;
use second::record::ENTRY_ARGS;

/// A buffer size for a log of a few KiB.
pub fn any_size(random: &mut Random) -> Option<usize> {
    match random.below(5) {
        0 => None,
        1 => Some(LEAST + random.index(64)),
        2 | 3 => Some(LEAST + random.index(500)),
        _ => Some(LEAST + random.index(3000)),
    }
}

pub fn nested(random: &mut Random, order: Order) -> Vec<u8> {
    let size = any_size(random);
    let ids = 1 + random.index(12);
    let deepest = 2 + random.index(30);
    let mut maker = Maker::with_ids(random, order, size, ids);
    maker.drift = 1000;
    for _ in 0..maker.random.below(160) {
        maker.act(deepest);
    }
    maker.finish()
}

pub fn recursive(random: &mut Random, order: Order) -> Vec<u8> {
    let size = any_size(random);
    let ids = 1 + random.index(3);
    let mut maker = Maker::with_ids(random, order, size, ids);
    for _ in 0..1 + maker.random.below(4) {
        let depth = maker.random.index(50);
        maker.climb(depth);
        for _ in 0..maker.random.below(50) {
            maker.leave_open();
        }
    }
    maker.finish()
}

pub fn carried(random: &mut Random, order: Order) -> Vec<u8> {
    let size = Some(LEAST + random.index(40));
    let ids = 1 + random.index(6);
    let mut maker = Maker::with_ids(random, order, size, ids);
    maker.drift = maker.random.one_of(&[0, 1, 100]);
    for _ in 0..maker.random.below(90) {
        maker.act(60);
    }
    maker.finish()
}

pub fn events(random: &mut Random, order: Order) -> Vec<u8> {
    let size = any_size(random);
    let ids = 1 + random.index(5);
    let mut maker = Maker::with_ids(random, order, size, ids);
    for _ in 0..maker.random.below(40) {
        match maker.random.below(4) {
            0 => maker.event(),
            1 => {
                let (id, delta) = (maker.known(), maker.delta());
                maker.function(ENTRY_ARGS, id, delta);
                maker.stack.push(id);
                let most = maker.random.below(12);
                maker.arguments(most);
            }
            _ => maker.act(40),
        }
    }
    maker.finish()
}
