//! Ticks and frequencies of a pair, by how their products lie.

use crate::products;
use logs::random::Random;

/// The four numbers that are multiplied.
#[derive(Clone, Copy)]
pub struct Four {
    pub ticks_a: u64,
    pub frequency_a: u64,
    pub ticks_b: u64,
    pub frequency_b: u64,
}

impl Four {
    /// ticksA times frequencyB, and ticksB times frequencyA.
    fn products(&self) -> (u128, u128) {
        let left = products::product(self.ticks_a, self.frequency_b);
        (left, products::product(self.ticks_b, self.frequency_a))
    }
}

/// A number from 1 up, of at most this many bits; 1 for 0 bits.
fn bits(random: &mut Random, most: u64) -> u64 {
    match most {
        0 => 1,
        _ => (random.number() >> (64 - most)).max(1),
    }
}

pub fn any(random: &mut Random) -> Four {
    Four {
        ticks_a: random.number(),
        frequency_a: random.number().max(1),
        ticks_b: random.number(),
        frequency_b: random.number().max(1),
    }
}

pub fn no_ticks(random: &mut Random) -> Four {
    Four {
        ticks_a: 0,
        frequency_a: random.value().max(1),
        ticks_b: match random.once_in(3) {
            true => 0,
            false => random.value(),
        },
        frequency_b: random.value().max(1),
    }
}

/// (p q)(r s) = (p r)(q s), where each bracket is one number of 64 bits.
pub fn equal(random: &mut Random) -> Four {
    let inner = random.below(65);
    let (p, s) = (bits(random, 64 - inner), bits(random, 64 - inner));
    let (q, r) = (bits(random, inner), bits(random, inner));
    Four {
        ticks_a: p * q,
        frequency_a: q * s,
        ticks_b: p * r,
        frequency_b: r * s,
    }
}

pub fn one_changed(random: &mut Random) -> Four {
    let mut four = equal(random);
    let number = match random.below(4) {
        0 => &mut four.ticks_a,
        1 => &mut four.frequency_a,
        2 => &mut four.ticks_b,
        _ => &mut four.frequency_b,
    };
    *number = match *number {
        u64::MAX => u64::MAX - 1,
        1 => 2,
        other if random.once_in(2) => other - 1,
        other => other + 1,
    };
    four
}

/// Two fractions that follow each other among the convergents of a continued
/// fraction: their cross products differ by one.
pub fn neighbours(random: &mut Random) -> Four {
    let first = random.below(4);
    let second = 1 + random.below(4);
    let mut older = [first, 1];
    let mut newer = [first * second + 1, second];
    let size = random.below(32);
    while !random.once_in(60) {
        let quotient = bits(random, size);
        let next = [0, 1].map(|part| {
            let product = newer[part].checked_mul(quotient);
            product.and_then(|product| product.checked_add(older[part]))
        });
        let [Some(ticks), Some(frequency)] = next else {
            break;
        };
        older = newer;
        newer = [ticks, frequency];
    }
    Four {
        ticks_a: older[0],
        frequency_a: older[1],
        ticks_b: newer[0],
        frequency_b: newer[1],
    }
}

pub fn high_only(random: &mut Random) -> Four {
    loop {
        let four = match random.once_in(3) {
            true => multiples(random),
            false => congruent(random),
        };
        let (left, right) = four.products();
        if products::high_only(left, right) {
            return four;
        }
    }
}

/// x times 2^64 and y times 2^64, at times with y = x + 1.
fn multiples(random: &mut Random) -> Four {
    let shift = 1 + random.below(63);
    let x = bits(random, 64 - shift);
    let y = match random.once_in(2) {
        true => x.saturating_sub(1),
        false => bits(random, 64 - shift),
    };
    Four {
        ticks_a: x << shift,
        frequency_a: 1 << (64 - shift),
        ticks_b: y << shift,
        frequency_b: 1 << (64 - shift),
    }
}

/// Products that leave the same rest by 2^64.
fn congruent(random: &mut Random) -> Four {
    let ticks_a = random.value();
    let frequency_b = random.value().max(1);
    let frequency_a = random.value() | 1;
    let rest = ticks_a.wrapping_mul(frequency_b);
    Four {
        ticks_a,
        frequency_a,
        ticks_b: rest.wrapping_mul(inverse(frequency_a)),
        frequency_b,
    }
}

/// The number that times this odd one is 1 but for multiples of 2^64. Three
/// bits are right at first, and each step doubles them.
fn inverse(odd: u64) -> u64 {
    let mut inverse = odd;
    for _ in 0..5 {
        let error = odd.wrapping_mul(inverse);
        inverse = inverse.wrapping_mul(2u64.wrapping_sub(error));
    }
    inverse
}

pub fn low_only(random: &mut Random) -> Four {
    loop {
        let four = rounded(random);
        let (left, right) = four.products();
        if products::low_only(left, right) {
            return four;
        }
    }
}

/// A product, in most cases above 64 bits, and another as near to it as one
/// chosen factor allows, from below or from above.
fn rounded(random: &mut Random) -> Four {
    let [ticks_a, frequency_b] = [0, 1].map(|_| {
        let size = 40 + random.below(25);
        bits(random, size)
    });
    let left = products::product(ticks_a, frequency_b);
    let high = products::high(left);
    let frequency_a = high + 1 + random.below(u64::MAX - high);
    let quotient = (left / u128::from(frequency_a)) as u64;
    Four {
        ticks_a,
        frequency_a,
        ticks_b: quotient.saturating_add(random.below(2)),
        frequency_b,
    }
}

pub fn halves(random: &mut Random) -> Four {
    let mut number = || {
        let [high, low] = [0, 1].map(|_| match random.below(6) {
            0 => random.below(3),
            1 => (1 << 31) - 1 + random.below(3),
            2 => random.number() >> 32,
            _ => u64::from(u32::MAX) - random.below(3),
        });
        high << 32 | low
    };
    Four {
        ticks_a: number(),
        frequency_a: number().max(1),
        ticks_b: number(),
        frequency_b: number().max(1),
    }
}
