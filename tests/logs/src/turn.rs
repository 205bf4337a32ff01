//! A log turned into the other byte order, by Paper 01, "Bytes of a log", and
//! paper 02, CR 4: the bytes of each number in reverse, the bits that tell
//! records and flags apart in their other places, and all hidden bytes as they
//! are.

use second::header;
use second::order::Order;
use second::walk::{walk, Outcome};

/// The log of this order in the other one. Of a refused log the records up to
/// the refused place are turned, and what lies there as far as it goes.
pub fn turned(log: &[u8], order: Order) -> Vec<u8> {
    let mut other = log.to_vec();
    if log.len() < header::SIZE {
        return other;
    }
    for field in [0..2, 2..4, 8..16, 16..24] {
        other[field].reverse();
    }
    // Bit 0 becomes bit 31, and so on: the bytes keep their places.
    for byte in &mut other[4..8] {
        *byte = byte.reverse_bits();
    }
    let (items, outcome) = walk(log, order);
    for item in items {
        turn_record(&mut other[item.place as usize..], order);
    }
    match outcome {
        Outcome::Refused { number: 5.., place } if place < log.len() as u64 => {
            turn_record(&mut other[place as usize..], order);
        }
        _ => {}
    }
    other
}

/// The record at the start of these bytes, which may end within it.
fn turn_record(bytes: &mut [u8], order: Order) {
    let metadata = match order {
        Order::Little => bytes[0] & 1 == 1,
        Order::Big => bytes[0] & 0x80 != 0,
    };
    match metadata {
        true => turn_metadata(bytes, order),
        false => turn_function(bytes, order),
    }
}

fn turn_metadata(bytes: &mut [u8], order: Order) {
    let kind = match order {
        Order::Little => bytes[0] >> 1,
        Order::Big => bytes[0] & 0x7F,
    };
    bytes[0] = match order {
        Order::Little => 0x80 | kind,
        Order::Big => kind << 1 | 1,
    };
    // The widths of the fields that aren't hidden.
    let widths: &[usize] = match kind {
        0 => &[2],
        2 => &[2, 8],
        3 => &[8],
        4 => &[8, 4],
        5 => &[4, 8],
        _ => &[],
    };
    let mut at = 1;
    for width in widths {
        reverse(bytes, at, *width);
        at += width;
    }
}

fn turn_function(bytes: &mut [u8], order: Order) {
    match (order, bytes.first_chunk_mut::<4>()) {
        (Order::Little, Some(first)) => {
            let number = u32::from_le_bytes(*first);
            let (action, id) = (number >> 1 & 0b111, number >> 4);
            *first = (action << 28 | id).to_be_bytes();
        }
        (Order::Big, Some(first)) => {
            let number = u32::from_be_bytes(*first);
            let (action, id) = (number >> 28, number & 0x0FFF_FFFF);
            *first = (id << 4 | action << 1).to_le_bytes();
        }
        // The action, and four bits of an id.
        (Order::Little, None) => bytes[0] = (bytes[0] >> 1 & 0b111) << 4 | bytes[0] >> 4,
        (Order::Big, None) => bytes[0] = (bytes[0] >> 4) << 1 | bytes[0] << 4,
    }
    reverse(bytes, 4, 4);
}

/// Reverses the number at this place, where it is whole.
fn reverse(bytes: &mut [u8], at: usize, width: usize) {
    if let Some(number) = bytes.get_mut(at..at + width) {
        number.reverse();
    }
}
