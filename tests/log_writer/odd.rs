//! States that no session need have returned: near to those that one can, or
//! far away.

use harness::order;
use harness::state::At;
use logs::random::Random;
use second::header::LONGEST;
use second::log_writer::State;
use second::order::Order;

/// A state near to this one, or, where none is given and at times else, near to
/// one that some calls on an output of this length may return.
pub fn at(random: &mut Random, state: Option<&State>, length: usize) -> At {
    let mut at = match state {
        _ if length > LONGEST && random.once_in(2) => return past(random, length as u64),
        Some(state) if random.once_in(8) => return in_other_order(random, state),
        Some(state) if !random.once_in(3) => At::from(state),
        _ => somewhere(random, length as u64),
    };
    for _ in 0..random.below(3) {
        change(random, &mut at, length as u64);
    }
    at
}

/// The same state, but for its order.
fn in_other_order(random: &mut Random, state: &State) -> At {
    At {
        order: order::named(random, state.order.other()),
        ..At::from(state)
    }
}

/// Whole buffers up to the end, and the place in the last one.
fn somewhere(random: &mut Random, length: u64) -> At {
    let size = match random.below(12) {
        0 => 63,
        1 => length.saturating_sub(32),
        2 => 64,
        3 => random.value(),
        _ => 64 + random.below(200),
    };
    let fitting = length.saturating_sub(32) / size.max(1);
    let buffers = match random.below(8) {
        0 => fitting + 1,
        1 => random.below(fitting + 1),
        _ => fitting,
    };
    let end = size.wrapping_mul(buffers).wrapping_add(32);
    let stage = random.one_of(&[0, 3, 3, 4, 4, 1, 2]);
    let offset = match random.below(6) {
        0 | 1 => size.wrapping_sub(random.below(24)),
        2 | 3 => 44 + random.below(32),
        // Behind NewBuffer or behind WallTimeMarker.
        4 => 16 * random.below(4),
        _ => random.below(size),
    };
    inside(random, size, end, stage, offset)
}

/// At an offset of the buffer that ends here; between buffers, at the end.
fn inside(random: &mut Random, size: u64, end: u64, stage: u64, offset: u64) -> At {
    let order = random.one_of(&Order::ALL);
    At {
        order: order::named(random, order),
        size,
        thread: random.value(),
        place: match stage {
            0 => end,
            _ => end.wrapping_sub(size).wrapping_add(offset),
        },
        end,
        stage,
    }
}

/// Whole buffers up to the end of an output past the longest log: a state that
/// calls would return if a log could be longer.
fn past(random: &mut Random, length: u64) -> At {
    let buffers = 2 + random.below(40);
    let size = (length - 32) / buffers;
    let end = 32 + size * buffers;
    let stage = random.one_of(&[0, 3, 4]);
    let offset = 72 + random.below(size - 88);
    inside(random, size, end, stage, offset)
}

/// Changes a number, or two.
fn change(random: &mut Random, at: &mut At, length: u64) {
    let step = random.one_of(&[1, 7, 8, 9, 16, 32, 48, at.size]);
    let step = if random.once_in(2) {
        step
    } else {
        step.wrapping_neg()
    };
    match random.below(17) {
        0..=2 => at.place = at.place.wrapping_add(step),
        3 => at.end = at.end.wrapping_add(step),
        4 => at.size = at.size.wrapping_add(step),
        5 => at.place = at.end,
        6 => at.end = at.place,
        7 => (at.place, at.end) = (at.place.wrapping_add(step), at.end.wrapping_add(step)),
        8 => at.place = far(random, at.place, length),
        9 => at.end = far(random, at.end, length),
        10 => at.size = far(random, at.size, length),
        11 => at.thread = random.value(),
        12 => at.stage = random.one_of(&[5, 255, 256, u64::MAX, 1 << 32]),
        13 => at.order = random.one_of(&[0, 1, 2, 1 << 16, u32::MAX]),
        _ => at.stage = random.below(5),
    }
}

/// A number at an edge.
fn far(random: &mut Random, near: u64, length: u64) -> u64 {
    match random.below(10) {
        0 => 0,
        1 => u64::MAX - random.below(80),
        2 => near | 1 << (32 + random.below(32)),
        3 => length,
        4 => length + random.below(20),
        5 => 16_777_216 - random.below(3) * 16,
        6 => 16_777_184 + random.below(2),
        7 => 60 + random.below(8),
        8 => random.below(40),
        _ => random.value(),
    }
}

/// Another length for the output, up to its own.
pub fn length(random: &mut Random, at: &At, own: usize) -> usize {
    let near = match random.below(6) {
        0 => at.place,
        1 | 2 => at.end,
        3 => 32,
        4 => random.below(own as u64 + 1),
        _ => at.end.wrapping_add(at.size),
    };
    let near = match random.below(3) {
        0 => near.wrapping_sub(1),
        1 => near.wrapping_add(1),
        _ => near,
    };
    near.min(own as u64) as usize
}
