//! The walk from record to record, with the grammar. Paper 01, "Bytes of a
//! log" for the grammar and "The numbered refusals" for the order of tests:
//! 5 (no byte left), 6 or 19, 5 (the record), 7, 5 (its event), 8.

use crate::header::{self, Header};
use crate::order::Order;
use crate::reader;
use crate::record::{Record, ENTRY_ARGS};

/// Where in a buffer the walk stands.
#[derive(Debug, Clone, Copy, PartialEq, Eq)]
pub enum Stage {
    /// In front of a buffer.
    Between,
    /// Behind NewBuffer: WallTimeMarker is expected.
    WallTime,
    /// Behind WallTimeMarker: NewCPUId is expected.
    Cpu,
    /// Behind the three leading records.
    Body,
    /// As `Body`, and a CallArgument may stand here too.
    Arguments,
}

/// A position of the walk.
#[derive(Debug, Clone, Copy, PartialEq, Eq)]
pub struct Position {
    pub order: Order,
    pub place: u64,
    /// The end of the buffer around the place.
    pub end: u64,
    /// The size of each buffer.
    pub size: u64,
    pub stage: Stage,
    /// The first buffer's thread, once seen.
    pub thread: Option<u16>,
}

/// The answer at one position.
#[derive(Debug, Clone, Copy, PartialEq, Eq)]
pub enum Step {
    Over,
    Found { record: Record, next: Position },
    Refused { number: u8, place: u64 },
}

/// A record met on a walk, and the place where the walk went on.
#[derive(Debug, Clone, Copy, PartialEq, Eq)]
pub struct Item {
    pub place: u64,
    pub record: Record,
    pub next_place: u64,
}

/// How a walk ended.
#[derive(Debug, Clone, Copy, PartialEq, Eq)]
pub enum Outcome {
    Done,
    Refused { number: u8, place: u64 },
}

/// The position behind an accepted header.
pub fn start(header: &Header, order: Order) -> Position {
    Position {
        order,
        place: header::SIZE as u64,
        end: header::SIZE as u64,
        size: header.buffer_size,
        stage: Stage::Between,
        thread: None,
    }
}

/// The stage behind `record` at `stage`; `None` where the record may not stand
/// there by the grammar.
pub fn after(stage: Stage, record: &Record) -> Option<Stage> {
    match (stage, record) {
        (Stage::Between, Record::NewBuffer { .. }) => Some(Stage::WallTime),
        (Stage::WallTime, Record::WallTime { .. }) => Some(Stage::Cpu),
        (Stage::Cpu, Record::NewCpuId { .. }) => Some(Stage::Body),
        (Stage::Between | Stage::WallTime | Stage::Cpu, _) => None,
        (Stage::Body | Stage::Arguments, record) => after_in_body(stage, record),
    }
}

/// Paper 01, "Bytes of a log": "any number of NewCPUId, TSCWrap, function
/// records and events, then EndOfBuffer", and CallArgument "only directly
/// after Entry_Args or after another CallArgument of that run".
fn after_in_body(stage: Stage, record: &Record) -> Option<Stage> {
    match record {
        Record::Function { action, .. } if *action == ENTRY_ARGS => Some(Stage::Arguments),
        Record::Function { .. } => Some(Stage::Body),
        Record::NewCpuId { .. } | Record::TscWrap { .. } => Some(Stage::Body),
        Record::CustomEvent { .. } => Some(Stage::Body),
        Record::CallArgument { .. } if stage == Stage::Arguments => Some(Stage::Arguments),
        Record::EndOfBuffer => Some(Stage::Between),
        _ => None,
    }
}

/// One step of the walk, from any position at all.
pub fn next(log: &[u8], position: Position) -> Step {
    if position.stage == Stage::Between && position.place >= log.len() as u64 {
        return Step::Over;
    }
    match found(log, position) {
        Ok((record, next)) => Step::Found { record, next },
        Err(number) => Step::Refused {
            number,
            place: position.place,
        },
    }
}

/// The record at the position and the next position, or a refusal's number.
fn found(log: &[u8], position: Position) -> Result<(Record, Position), u8> {
    let end = buffer_end(log, position)?;
    let record = reader::record(log, position.order, end, position.place)?;
    let stage = after(position.stage, &record).ok_or(7)?;
    let behind = reader::behind(&record, end, position.place)?;
    let thread = thread_after(position.thread, &record)?;
    // "The rest of the buffer is skipped."
    let place = match record {
        Record::EndOfBuffer => end,
        _ => behind,
    };
    let next = Position {
        place,
        end,
        stage,
        thread,
        ..position
    };
    Ok((record, next))
}

/// The end of the buffer, or 5 where it lies past the log.
fn buffer_end(log: &[u8], position: Position) -> Result<u64, u8> {
    let end = match position.stage {
        Stage::Between => u128::from(position.place) + u128::from(position.size),
        _ => u128::from(position.end),
    };
    if end > log.len() as u128 {
        return Err(5);
    }
    Ok(end as u64)
}

/// The thread seen behind the record: "all buffers carry the first buffer's
/// thread", else 8.
pub(crate) fn thread_after(seen: Option<u16>, record: &Record) -> Result<Option<u16>, u8> {
    match (seen, record) {
        (Some(first), Record::NewBuffer { thread }) if first != *thread => Err(8),
        (_, Record::NewBuffer { thread }) => Ok(Some(*thread)),
        _ => Ok(seen),
    }
}

/// The header's tests and then the whole walk: the records up to the end or
/// to the first refusal. A refusal 1 to 4 has place 0.
pub fn walk(log: &[u8], order: Order) -> (Vec<Item>, Outcome) {
    let mut items = Vec::new();
    let mut position = match header::check(log, order) {
        Ok(header) => start(&header, order),
        Err(number) => return (items, Outcome::Refused { number, place: 0 }),
    };
    loop {
        match next(log, position) {
            Step::Over => return (items, Outcome::Done),
            Step::Refused { number, place } => return (items, Outcome::Refused { number, place }),
            Step::Found { record, next } => {
                items.push(Item {
                    place: position.place,
                    record,
                    next_place: next.place,
                });
                position = next;
            }
        }
    }
}
