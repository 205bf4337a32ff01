//! Logs from a seed: well-formed ones and damaged ones, of either byte order.
//! The same kind, seed and order give the same log everywhere.
//!
//! A kind names what was done to make the log, not what a reader must answer:
//! a changed byte may be a hidden one.

mod buffer;
mod bytes;
mod damage;
mod faults;
mod records;
mod sound;

use crate::random::Random;
use second::order::Order;

pub(crate) use bytes::{encode, first_byte, header, number, with_action};
pub use records::any_record;

/// What a log was made as.
#[derive(Debug, Clone, Copy, PartialEq, Eq)]
pub enum Kind {
    /// No refusal applies anywhere.
    WellFormed,
    /// A header alone, with any buffer_size.
    Bare,
    /// Cut at any byte, at times with a buffer_size that fits the rest.
    Truncated,
    /// A few bytes changed.
    Mutated,
    /// NewBuffer or WallTimeMarker in the body.
    LeadingInBody,
    /// CallArgument outside a run.
    LooseArgument,
    /// A leading record missing, swapped, replaced or put in.
    LeadingFault,
    /// A later buffer of another thread.
    OtherThread,
    /// A function record with an action above 3.
    StrangeAction,
    /// A metadata record with a kind above 6.
    StrangeKind,
    /// A record that runs past its buffer's end.
    RecordPastEnd,
    /// An event that runs to its buffer's end or past it.
    EventPastEnd,
    /// Records up to the buffer's end without EndOfBuffer.
    NoEndOfBuffer,
    WrongVersion,
    WrongType,
    WrongSize,
    /// Any bytes.
    Garbage,
    /// Any bytes, or any records, behind a good header.
    GarbageBody,
    /// 0 to 40 bytes.
    Short,
    /// Up to 1 MiB.
    Large,
    /// At the greatest length and one byte past it.
    Limit,
}

impl Kind {
    /// Every kind; the last two are slow and rare.
    pub const ALL: [Kind; 21] = [
        Kind::WellFormed,
        Kind::Bare,
        Kind::Truncated,
        Kind::Mutated,
        Kind::LeadingInBody,
        Kind::LooseArgument,
        Kind::LeadingFault,
        Kind::OtherThread,
        Kind::StrangeAction,
        Kind::StrangeKind,
        Kind::RecordPastEnd,
        Kind::EventPastEnd,
        Kind::NoEndOfBuffer,
        Kind::WrongVersion,
        Kind::WrongType,
        Kind::WrongSize,
        Kind::Garbage,
        Kind::GarbageBody,
        Kind::Short,
        Kind::Large,
        Kind::Limit,
    ];

    /// The kind of the input with this index in a run.
    pub fn at(index: u64) -> Kind {
        let common = Kind::ALL.len() as u64 - 2;
        if index % 20_000 == 11 {
            Kind::Limit
        } else if index % 2_000 == 7 {
            Kind::Large
        } else if index.is_multiple_of(5) {
            Kind::WellFormed
        } else {
            Kind::ALL[(index % common) as usize]
        }
    }
}

/// The log of this kind, seed and order.
pub fn log(kind: Kind, seed: u64, order: Order) -> Vec<u8> {
    let random = &mut Random::new(seed);
    match kind {
        Kind::WellFormed => sound::well_formed(random, order),
        Kind::Bare => sound::bare(random, order),
        Kind::Truncated => damage::truncated(random, order),
        Kind::Mutated => damage::mutated(random, order),
        Kind::OtherThread => damage::other_thread(random, order),
        Kind::WrongVersion => damage::wrong_number(random, order, 0),
        Kind::WrongType => damage::wrong_number(random, order, 2),
        Kind::WrongSize => damage::wrong_size(random, order),
        Kind::Garbage => damage::garbage(random, order),
        Kind::GarbageBody => damage::garbage_body(random, order),
        Kind::Short => damage::short(random, order),
        Kind::Large => sound::large(random, order),
        Kind::Limit => sound::limit(random, order, seed),
        _ => faults::one_fault(random, order, kind),
    }
}
