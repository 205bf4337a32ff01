//! The record reader. Paper 01, "Bytes of a log": "The record reader is given
//! the log, a buffer's end and a place. It tests 5, 6, 5, 5 and no grammar", and
//! 19 where it tests 6 (paper 02, CR 2).

use crate::order::Order;
use crate::record::{decode, Record};

/// The record reader's answer.
#[derive(Debug, Clone, Copy, PartialEq, Eq)]
pub enum Read {
    /// A record, and the place behind it and its event.
    Found { record: Record, next: u64 },
    /// A refusal's number, and the place that the reader was given.
    Refused { number: u8, place: u64 },
}

/// Reads the record at `place` in the buffer that ends at `end`. Takes any
/// end and any place.
pub fn read(log: &[u8], order: Order, end: u64, place: u64) -> Read {
    let found = record(log, order, end, place)
        .and_then(|record| behind(&record, end, place).map(|next| (record, next)));
    match found {
        Ok((record, next)) => Read::Found { record, next },
        Err(number) => Read::Refused { number, place },
    }
}

/// The bytes of the event at `place`, as the part of the log where they lie.
/// Empty where the place holds no event or a refused one.
pub fn event(log: &[u8], order: Order, end: u64, place: u64) -> &[u8] {
    match read(log, order, end, place) {
        Read::Found { record, next } => {
            let start = place + record.size();
            &log[start as usize..next as usize]
        }
        Read::Refused { .. } => &log[..0],
    }
}

/// The first three tests: 5 (no byte left), 6 or 19, 5 (the record).
pub fn record(log: &[u8], order: Order, end: u64, place: u64) -> Result<Record, u8> {
    // "An end past the log, or a place at or past the end, is 5."
    if end > log.len() as u64 || place >= end {
        return Err(5);
    }
    // From here on both numbers are at most the log's length.
    let left = &log[place as usize..end as usize];
    // The family shows in the first byte: 6 or 19 comes even where one byte is left.
    if let Some(number) = order.family(left[0]).strange() {
        return Err(number);
    }
    // The family is known, so only too few bytes can be missing.
    decode(left, order).ok_or(5)
}

/// The last test, 5 (its event): the place behind a record at `place` and its
/// event.
pub fn behind(record: &Record, end: u64, place: u64) -> Result<u64, u8> {
    let next = u128::from(place) + u128::from(record.size()) + u128::from(record.event_size());
    if next > u128::from(end) {
        return Err(5);
    }
    Ok(next as u64)
}
