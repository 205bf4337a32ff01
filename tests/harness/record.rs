//! Records as the numbers that the proved code takes and gives.

use logs::random::Random;
use second::record::Record;
use second::writer::LEAST_BAD_ID;

/// A kind of metadata with its fields in order, or, for any kind above 6, the
/// action, id and delta of a function record.
#[derive(Debug, Clone, Copy)]
pub struct Fields {
    pub kind: u64,
    pub values: [u64; 3],
}

/// The kind of an event's marker.
pub const EVENT: u64 = 5;
/// The kind of a CallArgument.
pub const ARGUMENT: u64 = 6;
/// The least kind that stands for a function record.
pub const FUNCTION: u64 = 7;

/// Records by kind and action.
pub const NAMES: [&str; 12] = [
    "NewBuffer",
    "EndOfBuffer",
    "NewCPUId",
    "TSCWrap",
    "WallTimeMarker",
    "CustomEventMarker",
    "CallArgument",
    "Entry",
    "Exit",
    "Tail_Exit",
    "Entry_Args",
    "action above 3",
];

impl From<&Record> for Fields {
    fn from(record: &Record) -> Fields {
        let (kind, values) = match *record {
            Record::NewBuffer { thread } => (0, [thread.into(), 0, 0]),
            Record::EndOfBuffer => (1, [0, 0, 0]),
            Record::NewCpuId { cpu, tsc } => (2, [cpu.into(), tsc, 0]),
            Record::TscWrap { tsc } => (3, [tsc, 0, 0]),
            Record::WallTime { seconds, micros } => (4, [seconds, micros.into(), 0]),
            Record::CustomEvent { size, tsc } => (EVENT, [size.into(), tsc, 0]),
            Record::CallArgument { argument } => (ARGUMENT, [argument, 0, 0]),
            Record::Function { action, id, delta } => {
                (FUNCTION, [action.into(), id.into(), delta.into()])
            }
        };
        Fields { kind, values }
    }
}

impl Fields {
    /// The record, with each field cut to its width.
    pub fn record(&self) -> Record {
        let [a, b, c] = self.values;
        let (cut_a, cut_b) = (a as u16, b as u32);
        match self.kind {
            0 => Record::NewBuffer { thread: cut_a },
            1 => Record::EndOfBuffer,
            2 => Record::NewCpuId { cpu: cut_a, tsc: b },
            3 => Record::TscWrap { tsc: a },
            4 => Record::WallTime {
                seconds: a,
                micros: cut_b,
            },
            EVENT => Record::CustomEvent {
                size: a as u32,
                tsc: b,
            },
            ARGUMENT => Record::CallArgument { argument: a },
            _ => Record::Function {
                action: a as u8,
                id: cut_b,
                delta: c as u32,
            },
        }
    }

    /// The place of the record in `NAMES`.
    pub fn name(&self) -> usize {
        match self.record() {
            Record::Function { action, .. } => FUNCTION as usize + usize::from(action).min(4),
            _ => self.kind as usize,
        }
    }

    /// A record of this kind with any fields.
    pub fn any(random: &mut Random, kind: u64) -> Fields {
        match kind {
            FUNCTION.. => any_function(random),
            _ => Fields {
                kind,
                values: [0; 3].map(|_| random.value()),
            },
        }
    }
}

/// A function record, often at an edge of what the writers take.
fn any_function(random: &mut Random) -> Fields {
    let action = match random.below(20) {
        0 => 4 + random.below(4),
        1 => random.below(256),
        2..=8 => 3,
        _ => random.below(3),
    };
    let edge = u64::from(LEAST_BAD_ID);
    let id = match random.below(24) {
        0 => edge,
        1 => u64::from(u32::MAX),
        2 => random.below(1 << 32),
        3 => (1 << 32) + random.below(edge),
        4..=6 => edge - 1,
        7..=9 => random.below(edge),
        _ => random.below(8),
    };
    Fields {
        kind: random.one_of(&[FUNCTION, FUNCTION, FUNCTION, 8, 255, 256, u64::MAX]),
        values: [action, id, random.value()],
    }
}
