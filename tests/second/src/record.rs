//! Records and their bytes. Paper 01, "Bytes of a log".

use crate::order::Order;

/// One record with the values it carries. Its hidden bytes are left out,
/// except for a CallArgument's argument.
#[derive(Debug, Clone, Copy, PartialEq, Eq)]
pub enum Record {
    Function { action: u8, id: u32, delta: u32 },
    NewBuffer { thread: u16 },
    EndOfBuffer,
    NewCpuId { cpu: u16, tsc: u64 },
    TscWrap { tsc: u64 },
    WallTime { seconds: u64, micros: u32 },
    CustomEvent { size: u32, tsc: u64 },
    CallArgument { argument: u64 },
}

/// The action after which a run of CallArguments may stand.
pub const ENTRY_ARGS: u8 = 3;

impl Record {
    /// The record's own bytes, without its event: 8 or 16.
    pub fn size(&self) -> u64 {
        match self {
            Record::Function { .. } => 8,
            _ => 16,
        }
    }

    /// The bytes of event that follow the record.
    pub fn event_size(&self) -> u64 {
        match self {
            Record::CustomEvent { size, .. } => u64::from(*size),
            _ => 0,
        }
    }
}

/// The family of a record: "a record's first byte tells its family", by the
/// byte order.
#[derive(Debug, Clone, Copy, PartialEq, Eq)]
pub enum Family {
    /// With the action.
    Function(u8),
    /// With the kind.
    Metadata(u8),
}

impl Family {
    /// Paper 02, CR 2: "6 is an action above 3 and a new 19 is a kind above 6".
    pub fn strange(self) -> Option<u8> {
        match self {
            Family::Function(action) => (action > 3).then_some(6),
            Family::Metadata(kind) => (kind > 6).then_some(19),
        }
    }

    /// The size of any record of this family.
    pub fn size(self) -> u64 {
        match self {
            Family::Function(_) => 8,
            Family::Metadata(_) => 16,
        }
    }
}

/// The record at the start of these bytes. `None` where they are too few, or
/// where the family is not a known one.
pub fn decode(bytes: &[u8], order: Order) -> Option<Record> {
    let family = order.family(*bytes.first()?);
    let bytes = bytes.get(..family.size() as usize)?;
    match family {
        Family::Function(action) if action <= 3 => Some(Record::Function {
            action,
            id: order.id(order.number(&bytes[0..4])),
            delta: order.number(&bytes[4..8]) as u32,
        }),
        Family::Function(_) => None,
        Family::Metadata(kind) => metadata(kind, order, &bytes[1..]),
    }
}

/// The metadata record of this kind with these 15 data bytes.
fn metadata(kind: u8, order: Order, data: &[u8]) -> Option<Record> {
    let number = |bytes| order.number(bytes);
    match kind {
        0 => Some(Record::NewBuffer {
            thread: number(&data[0..2]) as u16,
        }),
        1 => Some(Record::EndOfBuffer),
        2 => Some(Record::NewCpuId {
            cpu: number(&data[0..2]) as u16,
            tsc: number(&data[2..10]),
        }),
        3 => Some(Record::TscWrap {
            tsc: number(&data[0..8]),
        }),
        4 => Some(Record::WallTime {
            seconds: number(&data[0..8]),
            micros: number(&data[8..12]) as u32,
        }),
        5 => Some(Record::CustomEvent {
            size: number(&data[0..4]) as u32,
            tsc: number(&data[4..12]),
        }),
        6 => Some(Record::CallArgument {
            argument: number(&data[0..8]),
        }),
        _ => None,
    }
}
