//! Logs from a seed that are made for the replay: calls that nest, are
//! abandoned, carry over from buffer to buffer, and come near to the limits of
//! Paper 01, "The numbered refusals", 9 to 13; of either byte order. The same
//! kind, seed and order give the same log everywhere.
//!
//! A kind names what was done to make the log, not what the replay must
//! answer.

mod acts;
mod clocks;
mod damage;
mod faults;
mod length;
mod limits;
mod maker;
mod nesting;

use crate::random::Random;
use second::order::Order;

pub use length::of_length;

/// What a log was made as.
#[derive(Debug, Clone, Copy, PartialEq, Eq)]
pub enum Kind {
    /// Calls of several functions, some abandoned, with tail exits.
    Nested,
    /// Up to three functions that call themselves and one another.
    Recursive,
    /// Small buffers, from one to the next of which the stack carries over.
    Carried,
    /// Many events and arguments between the calls.
    Events,
    /// Around 256 open calls.
    Deep,
    /// Clocks near 2^64, and sums that just pass it or don't.
    HighClock,
    /// Ticks of one row near 2^64.
    TickSum,
    /// Clocks set back between entry and exit, or to the same reading.
    Backward,
    /// An exit that finds no open call of its id.
    NoEntry,
    /// Two faults at one record.
    TwoFaults,
    /// A byte or two changed.
    Mutated,
    /// Cut at any byte, at times with a buffer_size that fits the rest.
    Truncated,
    /// A record changed against the grammar.
    Ungrammatical,
    /// Around 1,024 function ids.
    Wide,
    /// Around 256 open calls and 1,024 function ids at once.
    DeepAndWide,
    /// An exit that finds no open call, with around 1,024 function ids.
    WideNoEntry,
    /// Up to 1 MiB.
    Large,
    /// At the greatest length, just below it and one byte past it.
    Limit,
}

/// How many of the kinds are common; the rest are slower.
const COMMON: u64 = 13;

impl Kind {
    /// Every kind, the common ones first.
    pub const ALL: [Kind; 18] = [
        Kind::Nested,
        Kind::Recursive,
        Kind::Carried,
        Kind::Events,
        Kind::Deep,
        Kind::HighClock,
        Kind::TickSum,
        Kind::Backward,
        Kind::NoEntry,
        Kind::TwoFaults,
        Kind::Mutated,
        Kind::Truncated,
        Kind::Ungrammatical,
        Kind::Wide,
        Kind::DeepAndWide,
        Kind::WideNoEntry,
        Kind::Large,
        Kind::Limit,
    ];

    /// The first ones, whose logs are well-formed and mostly short.
    pub const SOUND: &'static [Kind] = Kind::ALL.split_at(9).0;

    /// The kind of the log with this index in a run.
    pub fn at(index: u64) -> Kind {
        if index % 14_999 == 13 {
            Kind::Limit
        } else if index % 1_000 == 7 {
            Kind::Large
        } else {
            match index % 50 {
                1 => Kind::Wide,
                18 => Kind::DeepAndWide,
                35 => Kind::WideNoEntry,
                _ => Kind::ALL[(index % COMMON) as usize],
            }
        }
    }
}

/// The log of this kind, seed and order.
pub fn log(kind: Kind, seed: u64, order: Order) -> Vec<u8> {
    let random = &mut Random::new(seed);
    match kind {
        Kind::Nested => nesting::nested(random, order),
        Kind::Recursive => nesting::recursive(random, order),
        Kind::Carried => nesting::carried(random, order),
        Kind::Events => nesting::events(random, order),
        Kind::Deep => limits::deep(random, order),
        Kind::HighClock => clocks::high_clock(random, order),
        Kind::TickSum => clocks::tick_sum(random, order),
        Kind::Backward => clocks::backward(random, order),
        Kind::NoEntry => faults::no_entry(random, order),
        Kind::TwoFaults => faults::two_faults(random, order),
        Kind::Mutated => damaged(random, order, damage::mutated),
        Kind::Truncated => damaged(random, order, damage::truncated),
        Kind::Ungrammatical => damaged(random, order, damage::ungrammatical),
        Kind::Wide => limits::wide(random, order),
        Kind::DeepAndWide => limits::deep_and_wide(random, order),
        Kind::WideNoEntry => faults::wide_no_entry(random, order),
        Kind::Large => length::large(random, order),
        Kind::Limit => length::limit(random, order, seed),
    }
}

/// A log of a sound kind, damaged in this way.
fn damaged(
    random: &mut Random,
    order: Order,
    damage: fn(&mut Random, Order, Vec<u8>) -> Vec<u8>,
) -> Vec<u8> {
    let kind = match random.below(60) {
        0 => Kind::Wide,
        _ => random.one_of(Kind::SOUND),
    };
    let log = log(kind, random.number(), order);
    damage(random, order, log)
}
