//! Sides of a pair, good and refused.

use logs::random::Random;
use second::compare::Side;

/// A side of five numbers, each taken from `number`.
fn side(mut number: impl FnMut() -> u64) -> Side {
    Side {
        frequency: number(),
        constant_tsc: number(),
        closed: number(),
        backward: number(),
        ticks: number(),
    }
}

pub fn any(random: &mut Random) -> Side {
    side(|| random.number())
}

pub fn top(random: &mut Random) -> Side {
    side(|| u64::MAX - random.below(4))
}

pub fn small(random: &mut Random) -> Side {
    let calls = side(|| random.below(3));
    Side {
        frequency: random.below(16),
        ticks: random.below(16),
        ..calls
    }
}

pub fn zeros(random: &mut Random) -> Side {
    side(|| match random.once_in(5) {
        true => 0,
        false => random.number(),
    })
}

pub fn edges(random: &mut Random) -> Side {
    let mut one = side(|| random.value());
    one.closed = match random.below(4) {
        0 => one.closed,
        1 => one.backward,
        2 => one.backward.saturating_sub(1),
        _ => one.backward.saturating_add(1),
    };
    one
}

/// A side with a unit and a measured call.
pub fn measured(random: &mut Random, ticks: u64, frequency: u64) -> Side {
    let flags = [1, 1, 1, 2, 256, 1 << 32, 1 << 63, u64::MAX];
    let closed = random.value().max(1);
    let gap = match random.once_in(2) {
        true => 1,
        false => 1 + random.below(closed),
    };
    Side {
        frequency,
        constant_tsc: random.one_of(&flags),
        closed,
        backward: closed - gap,
        ticks,
    }
}

/// Forms of a side: frequency, constant_tsc, size, and closed to backward.
pub const FORMS: u64 = 2 * 2 * 2 * 3;

/// A side of this form. Small numbers are few, so that pairs of them are equal
/// at times.
pub fn form(random: &mut Random, form: u64) -> Side {
    let big = form / 4 % 2 == 1;
    let mut one = side(|| match big {
        true => u64::MAX - random.below(1 << 62),
        false => 1 + random.below(3),
    });
    if form % 2 == 1 {
        one.frequency = 0;
    }
    if form / 2 % 2 == 1 {
        one.constant_tsc = 0;
    }
    let least = one.closed - 1;
    let less = match random.once_in(2) {
        true => least,
        false => random.below(one.closed),
    };
    match form / 8 {
        0 => one.backward = less,
        1 => one.backward = one.closed,
        _ => (one.closed, one.backward) = (less, one.closed),
    }
    one
}
