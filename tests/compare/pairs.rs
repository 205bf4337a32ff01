//! Pairs of sides from a seed. The same kind, number and seed give the same
//! pair everywhere.

use crate::factors::{self, Four};
use crate::sides;
use logs::random::Random;
use second::compare::Side;

/// What a pair was made as. All kinds but `Random`, `Top`, `Small`, `Zeros`,
/// `Edges` and `Refusals` have a unit and a measured call on both sides.
#[derive(Debug, Clone, Copy, PartialEq, Eq)]
pub enum Kind {
    /// Any ten numbers.
    Random,
    /// Any ticks and frequencies.
    Measured,
    /// Ten numbers near 2^64 - 1.
    Top,
    /// Ten numbers below 16, most of them below 3.
    Small,
    /// Any numbers, some of them 0.
    Zeros,
    /// Ticks 0 on one side or on both.
    NoTicks,
    /// Ten numbers of any magnitude, often at an edge.
    Edges,
    /// Equal products, factored in two ways.
    Equal,
    /// Equal products, then one of the four numbers changed by one.
    OneChanged,
    /// Products that differ by exactly one.
    Neighbours,
    /// Products that differ, and only in their high 64 bits.
    HighOnly,
    /// Products above 64 bits that differ, and only in their low 64 bits.
    LowOnly,
    /// Numbers whose 32-bit halves are at edges, so that sums of their
    /// products carry.
    Halves,
    /// Each frequency and each constant_tsc 0 or not, each closed below, at or
    /// above backward, each side's other numbers small or big: all in turn.
    Refusals,
}

impl Kind {
    pub const ALL: [Kind; 14] = [
        Kind::Random,
        Kind::Measured,
        Kind::Top,
        Kind::Small,
        Kind::Zeros,
        Kind::NoTicks,
        Kind::Edges,
        Kind::Equal,
        Kind::OneChanged,
        Kind::Neighbours,
        Kind::HighOnly,
        Kind::LowOnly,
        Kind::Halves,
        Kind::Refusals,
    ];

    /// The kind of the pair with this index in a run.
    pub fn at(index: u64) -> Kind {
        Kind::ALL[(index % Kind::ALL.len() as u64) as usize]
    }
}

#[derive(Debug, Clone, Copy)]
pub struct Pair {
    pub a: Side,
    pub b: Side,
}

impl Pair {
    pub fn exchanged(self) -> Pair {
        Pair {
            a: self.b,
            b: self.a,
        }
    }
}

/// The pair with this index in a run with this seed.
pub fn pair(index: u64, seed: u64) -> Pair {
    let random = &mut Random::new(seed.wrapping_add(index));
    let kind = Kind::at(index);
    let pair = match kind {
        Kind::Random => of_sides(random, sides::any),
        Kind::Top => of_sides(random, sides::top),
        Kind::Small => of_sides(random, sides::small),
        Kind::Zeros => of_sides(random, sides::zeros),
        Kind::Edges => of_sides(random, sides::edges),
        Kind::Refusals => return refusals(random, index / Kind::ALL.len() as u64),
        Kind::Measured => measured(random, factors::any),
        Kind::NoTicks => measured(random, factors::no_ticks),
        Kind::Equal => measured(random, factors::equal),
        Kind::OneChanged => measured(random, factors::one_changed),
        Kind::Neighbours => measured(random, factors::neighbours),
        Kind::HighOnly => measured(random, factors::high_only),
        Kind::LowOnly => measured(random, factors::low_only),
        Kind::Halves => measured(random, factors::halves),
    };
    match random.once_in(2) {
        true => pair.exchanged(),
        false => pair,
    }
}

fn of_sides(random: &mut Random, side: fn(&mut Random) -> Side) -> Pair {
    let a = side(random);
    let b = side(random);
    Pair { a, b }
}

/// Both sides with a unit and a measured call.
fn measured(random: &mut Random, four: fn(&mut Random) -> Four) -> Pair {
    let four = four(random);
    Pair {
        a: sides::measured(random, four.ticks_a, four.frequency_a),
        b: sides::measured(random, four.ticks_b, four.frequency_b),
    }
}

/// Every form of each side with every form of the other, in turn.
fn refusals(random: &mut Random, number: u64) -> Pair {
    let a = sides::form(random, number % sides::FORMS);
    let b = sides::form(random, number / sides::FORMS % sides::FORMS);
    Pair { a, b }
}
