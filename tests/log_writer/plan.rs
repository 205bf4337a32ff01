//! What a sequence of calls is made as.

use logs::random::Random;
use second::log_writer::GREATEST_BUFFER;

#[derive(Debug, Clone, Copy, PartialEq, Eq)]
pub enum Kind {
    /// Outputs of every length up to 300, with small buffers.
    Small,
    /// Outputs of up to some thousand bytes.
    Middle,
    /// Buffers filled up to the end of their room.
    Full,
    /// A buffer_size at an edge.
    Edge,
    /// Outputs of about 16 MiB.
    Large,
}

/// The longest output of a small kind.
pub const SMALL: usize = 300;
/// One in this many sequences has a large output.
const LARGE: u64 = 4_000;

impl Kind {
    pub const ALL: [Kind; 5] = [
        Kind::Small,
        Kind::Middle,
        Kind::Full,
        Kind::Edge,
        Kind::Large,
    ];

    /// The kind of the sequence with this index in a run.
    pub fn at(index: u64) -> Kind {
        match index % 8 {
            _ if index % LARGE == 17 => Kind::Large,
            0 => Kind::Edge,
            1..=3 => Kind::Small,
            4 | 5 => Kind::Middle,
            _ => Kind::Full,
        }
    }
}

pub struct Plan {
    /// The length of the output.
    pub length: usize,
    /// buffer_size.
    pub size: u64,
    /// How many calls follow the start.
    pub calls: usize,
}

/// The plan of the sequence with this index.
pub fn plan(random: &mut Random, kind: Kind, index: u64) -> Plan {
    match kind {
        Kind::Small => Plan {
            length: index as usize / 3 % (SMALL + 1),
            size: 64 + random.below(60),
            calls: random.index(40),
        },
        Kind::Middle => {
            let size = 64 + random.below(1000);
            let buffers = random.below(5);
            Plan {
                length: (32 + size * buffers + random.below(40)) as usize,
                size,
                calls: random.index(80),
            }
        }
        Kind::Full => {
            let size = 64 + random.below(120);
            let spare = random.one_of(&[0, 0, 1, size - 1, size]);
            Plan {
                length: (31 + size * random.below(4) + spare) as usize,
                size,
                calls: 10 + random.index(60),
            }
        }
        Kind::Edge => edge(random),
        Kind::Large => large(random, index),
    }
}

/// Any length, and a size of which most are refused.
fn edge(random: &mut Random) -> Plan {
    let sizes = [
        0,
        1,
        62,
        63,
        64,
        65,
        GREATEST_BUFFER - 1,
        GREATEST_BUFFER,
        GREATEST_BUFFER + 1,
        (1 << 32) + 64,
        u64::MAX,
    ];
    let any = random.value();
    Plan {
        length: match random.below(4) {
            0 => 30 + random.index(4),
            _ => random.index(400),
        },
        size: match random.below(8) {
            0 => any,
            _ => random.one_of(&sizes),
        },
        calls: random.index(12),
    }
}

/// Buffers that end at 16,777,216 bytes, or that would pass it.
fn large(random: &mut Random, index: u64) -> Plan {
    let sizes = [
        GREATEST_BUFFER,
        GREATEST_BUFFER / 2,
        GREATEST_BUFFER / 2 + 1,
        GREATEST_BUFFER / 32,
        GREATEST_BUFFER / 3 + 1,
        GREATEST_BUFFER - 1,
    ];
    let lengths = [16_777_216, 16_777_217, 16_777_215, 16_780_000];
    let turn = (index / LARGE) as usize;
    Plan {
        length: lengths[(turn / sizes.len() + turn) % lengths.len()] as usize,
        size: sizes[turn % sizes.len()],
        calls: 12 + random.index(12),
    }
}
