//! Places, ends and positions that no walk need have reached: at an edge, near
//! to a record, or far away.

use harness::order;
use harness::state::{At, NO_THREAD};
use logs::random::Random;
use second::order::Order;

/// A record met on a walk.
#[derive(Clone, Copy)]
pub struct Met {
    pub at: At,
    /// The end of its buffer.
    pub end: u64,
    /// The place behind it and its event.
    pub behind: u64,
}

/// A record met, or any place in the log where none was.
pub fn near(random: &mut Random, met: &[Met], length: u64) -> Met {
    if !met.is_empty() && !random.once_in(4) {
        return met[random.index(met.len())];
    }
    let place = random.below(length);
    let end = place + random.below(length - place + 1);
    Met {
        at: At {
            order: 0,
            place,
            end,
            size: end - place,
            stage: random.below(5),
            thread: NO_THREAD,
        },
        end,
        behind: end,
    }
}

/// A number at an edge, or near to `near`.
pub fn odd(random: &mut Random, near: u64, length: u64) -> u64 {
    match random.below(20) {
        0 => 0,
        1 => length,
        2 => length.wrapping_sub(1),
        3 => length + 1,
        4 => u64::MAX - random.below(20),
        5 => near | (1 << (32 + random.below(32))),
        6 => random.value(),
        7 => near + 1,
        8 => near.wrapping_sub(1),
        9 => near + random.below(64),
        10 | 11 => random.below(length + 1),
        _ => near,
    }
}

/// A position near to this record, mostly with the log's own order.
pub fn position(random: &mut Random, near: &Met, log: &[u8], order: Order) -> At {
    let length = log.len() as u64;
    let place = match random.below(3) {
        0 => odd(random, near.at.place, length),
        _ => near.at.place,
    };
    let end = match random.below(3) {
        0 => near.end,
        _ => odd(random, near.behind, length),
    };
    let size = match random.below(4) {
        0 => random.value(),
        1 => near.at.size,
        // Between buffers, the sum is odd; it may be 2^64 and more.
        _ => odd(random, near.behind, length).wrapping_sub(place),
    };
    let stage = match random.below(10) {
        0 => 5 + random.below(300),
        1 => random.value(),
        2..=5 => near.at.stage,
        _ => random.below(5),
    };
    let order = match random.once_in(8) {
        true => order.other(),
        false => order,
    };
    At {
        order: order::named(random, order),
        place,
        end,
        size,
        stage,
        thread: thread(random, log, order, place),
    }
}

/// Any thread, none, or the one that a NewBuffer at the place names.
fn thread(random: &mut Random, log: &[u8], order: Order, place: u64) -> u64 {
    let named = usize::try_from(place)
        .ok()
        .and_then(|place| log.get(place..)?.get(1..3))
        .map_or(0, |bytes| order.number(bytes));
    match random.below(8) {
        0 => random.below(NO_THREAD),
        1 => NO_THREAD + named,
        2 => NO_THREAD + random.below(3),
        3 => random.value(),
        4 => NO_THREAD - 1,
        5 => named ^ (1 << random.below(16)),
        _ => named,
    }
}
