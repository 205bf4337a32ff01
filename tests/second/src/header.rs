//! The header and its tests. Paper 01, "Bytes of a log" and "The numbered
//! refusals", 1 to 4.

use crate::order::Order;

/// Bytes of the header.
pub const SIZE: usize = 32;
/// The most bytes that a log may have.
pub const LONGEST: usize = 16_777_216;
/// The least buffer_size where bytes follow the header.
pub const LEAST_BUFFER: u64 = 64;

/// What an accepted header says.
#[derive(Debug, Clone, Copy, PartialEq, Eq)]
pub struct Header {
    pub constant_tsc: bool,
    pub nonstop_tsc: bool,
    pub frequency: u64,
    pub buffer_size: u64,
}

/// Tests 1 to 4 in order. The error is the refusal's number.
pub fn check(log: &[u8], order: Order) -> Result<Header, u8> {
    match log.len() > LONGEST {
        true => Err(1),
        false => unlimited(log, order),
    }
}

/// Tests 1 to 4, where "1 has no upper limit": paper 02, CR 1.
pub fn unlimited(log: &[u8], order: Order) -> Result<Header, u8> {
    if log.len() < SIZE {
        return Err(1);
    }
    if order.number(&log[0..2]) != 1 {
        return Err(2);
    }
    if order.number(&log[2..4]) != 1 {
        return Err(3);
    }
    let buffer_size = order.number(&log[16..24]);
    let following = (log.len() - SIZE) as u64;
    // A bare header passes whatever its buffer_size says.
    if following > 0 && (buffer_size < LEAST_BUFFER || !following.is_multiple_of(buffer_size)) {
        return Err(4);
    }
    let bits = order.number(&log[4..8]);
    let [constant_tsc, nonstop_tsc] = order.flags().map(|flag| bits & flag != 0);
    Ok(Header {
        constant_tsc,
        nonstop_tsc,
        frequency: order.number(&log[8..16]),
        buffer_size,
    })
}
