//! Calls at an edge of the rules, in a session's own state.

use crate::call::Call;
use harness::record::EVENT;
use harness::state::At;
use second::header::LONGEST;
use second::log_writer::{is_returned, State, GREATEST_BUFFER};
use second::order::Order;
use second::record::{Record, ENTRY_ARGS};
use second::writer::LEAST_BAD_ID;

/// An edge, as it is printed, and whether a call and its answer lie there.
pub type Edge = (&'static str, fn(&Case) -> bool);

pub struct Case<'a> {
    /// The session's order.
    pub order: Order,
    pub call: &'a Call,
    pub at: &'a At,
    pub length: usize,
    pub answer: &'a Result<State, u8>,
    /// The record accepted before, in the same buffer.
    pub last: Option<&'a Record>,
}

pub const EDGES: [Edge; 33] = [
    ("size 63: 16", |case| case.starts(63) == Some(16)),
    ("size 64: taken", |case| case.starts(64) == Some(0)),
    ("size 16,777,184: taken", |case| {
        case.starts(GREATEST_BUFFER) == Some(0)
    }),
    ("size 16,777,185: 16", |case| {
        case.starts(GREATEST_BUFFER + 1) == Some(16)
    }),
    ("size and 31 bytes: 16", |case| {
        case.starts(63) == Some(16) && case.length < 32
    }),
    ("start in 31 bytes: 15", |case| {
        case.starts(64) == Some(15) && case.length == 31
    }),
    ("start in 32 bytes: taken", |case| {
        case.starts(64) == Some(0) && case.length == 32
    }),
    ("buffer to the end: taken", |case| {
        case.opens_up_to(case.length as u64) == Some(0)
    }),
    ("buffer a byte past it: 15", |case| {
        case.opens_up_to(case.length as u64 + 1) == Some(15)
    }),
    ("up to 16,777,216: taken", |case| {
        case.opens_up_to(LONGEST as u64) == Some(0)
    }),
    ("past it with room: 15", |case| {
        let end = case.at.place + case.at.size;
        let with_room = end > LONGEST as u64 && end <= case.length as u64;
        with_room && case.opens_up_to(end) == Some(15)
    }),
    ("open an open buffer: 7", |case| {
        case.is_open() && case.opens_up_to(case.at.place + case.at.size) == Some(7)
    }),
    ("close a closed one: 7", |case| {
        matches!(case.call, Call::Close) && !case.is_open() && case.number() == 7
    }),
    ("add to a closed one: 7", |case| {
        case.added().is_some() && !case.is_open() && case.number() == 7
    }),
    ("close without room: taken", |case| {
        let full = case.at.end - case.at.place == 16;
        matches!(case.call, Call::Close) && full && case.number() == 0
    }),
    ("id 268,435,455: taken", |case| {
        case.id() == Some(LEAST_BAD_ID - 1) && case.number() == 0
    }),
    ("id 268,435,456: 16", |case| {
        case.id() == Some(LEAST_BAD_ID) && case.number() == 16
    }),
    ("id 4,294,967,295: 16", |case| {
        case.id() == Some(u32::MAX) && case.number() == 16
    }),
    ("id and no room: 16", |case| {
        case.number() == 16 && case.is_open() && case.at.end - case.at.place < 24
    }),
    ("id and action: 7", |case| {
        let large = case.id().is_some_and(|id| id >= LEAST_BAD_ID);
        large && case.is_open() && case.number() == 7
    }),
    ("argument, Entry: 7", |case| {
        case.argument_after(0) == Some(7)
    }),
    ("argument, Entry_Args: taken", |case| {
        case.argument_after(ENTRY_ARGS) == Some(0)
    }),
    ("argument, argument: taken", |case| {
        let after = matches!(case.last, Some(Record::CallArgument { .. }));
        case.argument() && after && case.number() == 0
    }),
    ("function to the end: taken", |case| {
        let full = case.at.end.wrapping_sub(case.at.place) == 24;
        case.id().is_some() && full && case.number() == 0
    }),
    ("event of 0 bytes: taken", |case| {
        case.event() == Some(0) && case.number() == 0
    }),
    ("event of 1 byte: taken", |case| {
        case.event() == Some(1) && case.number() == 0
    }),
    ("event over 65,535: taken", |case| {
        case.event().is_some_and(|length| length > 65_535) && case.number() == 0
    }),
    ("event of a larger size: 7", |case| {
        case.size_above_length().is_some_and(|above| above > 0) && case.number() == 7
    }),
    ("event of a smaller size: 7", |case| {
        case.size_above_length().is_some_and(|above| above < 0) && case.number() == 7
    }),
    ("its size and no room: 7", |case| {
        let other = case.size_above_length().is_some_and(|above| above != 0);
        other && case.event() > Some(case.room()) && case.number() == 7
    }),
    ("bytes and no event: taken", |case| {
        case.event().is_none() && case.has_bytes() && case.number() == 0
    }),
    ("event to the end: taken", |case| {
        case.event().is_some_and(|length| length == case.room()) && case.number() == 0
    }),
    ("event a byte longer: 15", |case| {
        case.event().is_some_and(|length| length == case.room() + 1) && case.number() == 15
    }),
];

/// Whether only the limit of 16,777,216 bytes keeps accepted calls from
/// returning this state, and the call is one that takes such states.
pub fn is_past(call: &Call, at: &At, length: usize) -> bool {
    if at.end <= LONGEST as u64 || at.end > length as u64 || at.size > GREATEST_BUFFER {
        return false;
    }
    if at.size == 0 || !(at.end - 32).is_multiple_of(at.size) {
        return false;
    }
    // The same place in the first buffer.
    let first = 32 + at.size;
    let back = at.end - first;
    let state = State {
        place: at.place.wrapping_sub(back),
        end: first,
        ..at.state()
    };
    let takes = match call {
        Call::Close => at.stage > 0,
        Call::Open(_) => at.stage == 0,
        _ => false,
    };
    takes && is_returned(&state, first)
}

impl Case<'_> {
    /// The refusal's number, or 0.
    fn number(&self) -> u8 {
        self.answer.err().unwrap_or(0)
    }

    fn is_open(&self) -> bool {
        self.at.stage != 0
    }

    /// The answer to a start with this size.
    fn starts(&self, with: u64) -> Option<u8> {
        matches!(self.call, Call::Start(start) if start.size == with).then(|| self.number())
    }

    /// The answer to the opening of a buffer that would end here.
    fn opens_up_to(&self, end: u64) -> Option<u8> {
        let here = self.at.place + self.at.size == end;
        (here && matches!(self.call, Call::Open(_))).then(|| self.number())
    }

    fn added(&self) -> Option<Record> {
        match self.call {
            Call::Add { fields, .. } => Some(fields.record()),
            _ => None,
        }
    }

    fn id(&self) -> Option<u32> {
        match self.added()? {
            Record::Function { id, .. } => Some(id),
            _ => None,
        }
    }

    fn argument(&self) -> bool {
        matches!(self.added(), Some(Record::CallArgument { .. }))
    }

    /// The answer to a CallArgument behind a function record of this action.
    fn argument_after(&self, with: u8) -> Option<u8> {
        let after = matches!(self.last, Some(Record::Function { action, .. }) if *action == with);
        (after && self.argument()).then(|| self.number())
    }

    /// The length of the event that is added to an open buffer.
    fn event(&self) -> Option<u64> {
        match self.call {
            Call::Add { fields, event } if fields.kind == EVENT && self.is_open() => {
                Some(event.len() as u64)
            }
            _ => None,
        }
    }

    /// By how much the size of the event that is added to an open buffer is more
    /// than the length of its bytes.
    fn size_above_length(&self) -> Option<i64> {
        match self.added()? {
            Record::CustomEvent { size, .. } => Some(i64::from(size) - self.event()? as i64),
            _ => None,
        }
    }

    /// Whether bytes come with the record that is added.
    fn has_bytes(&self) -> bool {
        matches!(self.call, Call::Add { event, .. } if !event.is_empty())
    }

    /// The bytes for an event behind its marker.
    fn room(&self) -> u64 {
        (self.at.end - self.at.place).saturating_sub(32)
    }
}
