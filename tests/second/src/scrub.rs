//! The hidden bytes of a log, and the scrubber, which overwrites them with
//! zeros. Paper 01, "Bytes of a log", "Hidden bytes", and the scrubber's
//! sentence in "The numbered refusals".

use crate::header;
use crate::order::Order;
use crate::record::Record;
use crate::walk::{self, Position, Step};
use std::ops::Range;

/// What hidden bytes belong to. Those named after a record are its reserved or
/// unused ones.
#[derive(Debug, Clone, Copy, PartialEq, Eq)]
pub enum Kind {
    Header,
    NewBuffer,
    EndOfBuffer,
    NewCpuId,
    TscWrap,
    WallTime,
    CustomEvent,
    CallArgument,
    /// The eight bytes of an argument.
    Argument,
    /// The bytes of an event.
    Event,
    /// The skipped rest of a buffer.
    Rest,
}

impl Kind {
    pub const ALL: [Kind; 11] = [
        Kind::Header,
        Kind::NewBuffer,
        Kind::EndOfBuffer,
        Kind::NewCpuId,
        Kind::TscWrap,
        Kind::WallTime,
        Kind::CustomEvent,
        Kind::CallArgument,
        Kind::Argument,
        Kind::Event,
        Kind::Rest,
    ];
}

/// Hidden bytes that lie together.
#[derive(Debug, Clone, PartialEq, Eq)]
pub struct Part {
    pub kind: Kind,
    pub bytes: Range<usize>,
}

/// "Header bytes 24 to 31".
const RESERVED: Range<usize> = 24..32;

/// The hidden bytes of a log, by their places and without empty parts. Takes
/// any log: where one of the refusals 1 to 8 and 19 applies, no more records follow.
pub fn hidden(log: &[u8], order: Order) -> Vec<Part> {
    let mut parts = vec![Part {
        kind: Kind::Header,
        bytes: RESERVED.start.min(log.len())..RESERVED.end.min(log.len()),
    }];
    if let Ok(header) = header::check(log, order) {
        let mut position = walk::start(&header, order);
        while let Step::Found { record, next } = walk::next(log, position) {
            parts.extend(of_record(position.place, &record, &next));
            position = next;
        }
    }
    parts.retain(|part| !part.bytes.is_empty());
    parts
}

/// Scrubs the log in place: "tests 1 to 8 only, in the replay's order, and
/// changes nothing when it refuses", and 19 as 6 (paper 02, CR 2). The error is
/// the refusal's number and place. Takes any log.
pub fn scrub(log: &mut [u8], order: Order) -> Result<(), (u8, u64)> {
    let mut position = check(log, order)?;
    log[RESERVED].fill(0);
    while let Step::Found { record, next } = walk::next(log, position) {
        for part in of_record(position.place, &record, &next) {
            log[part.bytes].fill(0);
        }
        position = next;
    }
    Ok(())
}

/// All of the tests; the first position of a well-formed log.
fn check(log: &[u8], order: Order) -> Result<Position, (u8, u64)> {
    let header = header::check(log, order).map_err(|number| (number, 0))?;
    let start = walk::start(&header, order);
    let mut position = start;
    loop {
        match walk::next(log, position) {
            Step::Over => return Ok(start),
            Step::Refused { number, place } => return Err((number, place)),
            Step::Found { next, .. } => position = next,
        }
    }
}

/// The hidden bytes of the record at `place`, up to the next one, by their
/// places.
fn of_record(place: u64, record: &Record, next: &Position) -> impl Iterator<Item = Part> {
    let place = place as usize;
    let (argument, behind) = match record {
        Record::CallArgument { .. } => (Some(Kind::Argument), None),
        Record::CustomEvent { .. } => (None, Some(Kind::Event)),
        Record::EndOfBuffer => (None, Some(Kind::Rest)),
        _ => (None, None),
    };
    let argument = argument.map(|kind| (kind, place + 1..place + 9));
    let reserved = reserved(record).map(|(kind, at)| (kind, place + at..place + 16));
    let behind = behind.map(|kind| (kind, place + 16..next.place as usize));
    let parts = [argument, reserved, behind].into_iter().flatten();
    parts.map(|(kind, bytes)| Part { kind, bytes })
}

/// Where the reserved or unused bytes of a record start, which run to its end.
/// Behind its first byte lie the fields of the table, as wide as named here.
fn reserved(record: &Record) -> Option<(Kind, usize)> {
    match record {
        Record::Function { .. } => None,
        // Thread.
        Record::NewBuffer { .. } => Some((Kind::NewBuffer, 1 + 2)),
        Record::EndOfBuffer => Some((Kind::EndOfBuffer, 1)),
        // Cpu, absolute_tsc.
        Record::NewCpuId { .. } => Some((Kind::NewCpuId, 1 + 2 + 8)),
        // Absolute_tsc.
        Record::TscWrap { .. } => Some((Kind::TscWrap, 1 + 8)),
        // Seconds, microseconds.
        Record::WallTime { .. } => Some((Kind::WallTime, 1 + 8 + 4)),
        // Event_size, absolute_tsc.
        Record::CustomEvent { .. } => Some((Kind::CustomEvent, 1 + 4 + 8)),
        // Argument.
        Record::CallArgument { .. } => Some((Kind::CallArgument, 1 + 8)),
    }
}
