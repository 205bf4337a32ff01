//! The byte order as the number that the proved code takes: 0 is little-endian,
//! and any other is big-endian.

use logs::random::Random;
use second::order::Order;

/// The number that names a position's or a state's order in an answer.
pub fn number(order: Order) -> u32 {
    match order {
        Order::Little => 0,
        Order::Big => 1,
    }
}

/// A number for this order, of which big-endian has many.
pub fn named(random: &mut Random, order: Order) -> u32 {
    let any = random.number() as u32;
    match order {
        Order::Little => 0,
        Order::Big => random.one_of(&[1, 1, 2, 1 << 8, 1 << 31, u32::MAX, any.max(1)]),
    }
}

/// The order that a number names.
pub fn of(number: u32) -> Order {
    match number {
        0 => Order::Little,
        _ => Order::Big,
    }
}
