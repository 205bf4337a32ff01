//! Logs damaged: bytes changed, a log cut, a record against the grammar.

use crate::generate::{first_byte, number, with_action};
use crate::random::Random;
use second::header;
use second::order::Order;
use second::record::Record;
use second::walk::{self, Item};

/// A byte or two changed: anywhere, or near a record's first byte.
pub fn mutated(random: &mut Random, order: Order, mut log: Vec<u8>) -> Vec<u8> {
    let items = walk::walk(&log, order).0;
    for _ in 0..1 + random.index(2) {
        let near = items[random.index(items.len())].place as usize;
        let place = match random.below(3) {
            0 => random.index(log.len()),
            _ => near + random.index(8),
        };
        log[place] = match random.below(3) {
            0 => log[place] ^ (1 << random.below(8)),
            1 => first_byte(order, random.below(16) as u8),
            _ => random.number() as u8,
        };
    }
    log
}

/// Cut at any byte or behind a record, mostly with a buffer_size that fits the
/// rest.
pub fn truncated(random: &mut Random, order: Order, mut log: Vec<u8>) -> Vec<u8> {
    let length = match random.below(3) {
        0 => {
            let items = walk::walk(&log, order).0;
            items[random.index(items.len())].next_place as usize
        }
        _ => random.index(log.len()),
    };
    log.truncate(length);
    if log.len() >= header::SIZE && !random.once_in(4) {
        let following = (log.len() - header::SIZE) as u64;
        log[16..24].copy_from_slice(&number(order, following, 8));
    }
    log
}

/// A record changed, mostly against the grammar.
pub fn ungrammatical(random: &mut Random, order: Order, mut log: Vec<u8>) -> Vec<u8> {
    let items = walk::walk(&log, order).0;
    let change = random.below(8);
    let place = match change {
        0 => place_of(random, &items, |it| matches!(it, Record::NewBuffer { .. })),
        1 => place_of(random, &items, |it| {
            matches!(it, Record::CustomEvent { .. })
        }),
        2 => place_of(random, &items, |it| *it == Record::EndOfBuffer),
        _ => place_of(random, &items, |_| true),
    };
    match change {
        0 => log[place + 1 + random.index(2)] ^= 1 << random.below(8),
        1 => log[place + 1 + random.index(4)] = random.number() as u8,
        2 => log[place] = first_byte(order, random.one_of(&[0, 2, 5, 7, 11, 13])),
        3 => log[place] = first_byte(order, (7 + random.below(121) as u8) * 2 + 1),
        4 => log[place] = with_action(order, log[place], 4 + random.below(4) as u8),
        5 => log[place] = with_action(order, log[place], random.below(4) as u8),
        // NewBuffer, EndOfBuffer, WallTimeMarker, CallArgument, or any kind.
        6 => log[place] = first_byte(order, random.one_of(&[1, 3, 9, 13])),
        _ => log[place] = first_byte(order, random.below(7) as u8 * 2 + 1),
    }
    log
}

/// The place of one of these records, or of any where there are none.
fn place_of(random: &mut Random, items: &[Item], like: fn(&Record) -> bool) -> usize {
    let places = items.iter().filter(|item| like(&item.record));
    let places: Vec<u64> = places.map(|item| item.place).collect();
    let place = match places.len() {
        0 => items[random.index(items.len())].place,
        some => places[random.index(some)],
    };
    place as usize
}
