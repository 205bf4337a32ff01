//! Records with any values.

use crate::random::Random;
use second::record::Record;

pub fn function(random: &mut Random, action: u8) -> Record {
    let id = match random.below(3) {
        0 => random.number() as u32 >> 4,
        _ => random.below(8) as u32,
    };
    Record::Function {
        action,
        id,
        delta: random.value() as u32,
    }
}

/// Any record at all. An event's size is mostly small.
pub fn any_record(random: &mut Random) -> Record {
    match random.below(11) {
        0 => Record::NewBuffer {
            thread: random.number() as u16,
        },
        1 => Record::EndOfBuffer,
        2 => Record::NewCpuId {
            cpu: random.value() as u16,
            tsc: random.value(),
        },
        3 => Record::TscWrap {
            tsc: random.value(),
        },
        4 => Record::WallTime {
            seconds: random.value(),
            micros: random.value() as u32,
        },
        5 => Record::CustomEvent {
            size: random.below(40) as u32,
            tsc: random.value(),
        },
        6 => Record::CallArgument {
            argument: random.value(),
        },
        _ => {
            let action = random.below(4) as u8;
            function(random, action)
        }
    }
}

pub fn leading_records(random: &mut Random, thread: u16) -> Vec<Record> {
    vec![
        Record::NewBuffer { thread },
        Record::WallTime {
            seconds: random.value(),
            micros: random.below(1_000_000) as u32,
        },
        Record::NewCpuId {
            cpu: random.below(8) as u16,
            tsc: random.value(),
        },
    ]
}
