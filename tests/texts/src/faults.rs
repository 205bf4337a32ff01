//! One fault in a DCFG, at any place where it can stand.

mod amounts;
mod names;
mod values;

use crate::value::{Form, Role, Value, Way};
use logs::random::Random;

pub use amounts::{fill_edges, fill_threads};

#[derive(Debug, Clone, Copy, PartialEq, Eq)]
pub enum Fault {
    /// Nested more than 32 deep, skipped or of the wrong kind.
    Deep,
    RepeatedKey,
    RepeatedColumn,
    WrongKind,
    IdOutside,
    OwnIdRepeated,
    TooManyEdges,
    TooManyThreads,
    MissingKey,
    MissingColumn,
    MissingCell,
    NoSum,
}

impl Fault {
    pub const ALL: [Fault; 12] = [
        Fault::Deep,
        Fault::RepeatedKey,
        Fault::RepeatedColumn,
        Fault::WrongKind,
        Fault::IdOutside,
        Fault::OwnIdRepeated,
        Fault::TooManyEdges,
        Fault::TooManyThreads,
        Fault::MissingKey,
        Fault::MissingColumn,
        Fault::MissingCell,
        Fault::NoSum,
    ];

    /// The number by which a DCFG with this fault alone is refused.
    pub fn number(self) -> u8 {
        match self {
            Fault::Deep => 32,
            Fault::RepeatedKey | Fault::RepeatedColumn => 33,
            Fault::WrongKind => 34,
            Fault::IdOutside => 35,
            Fault::OwnIdRepeated => 36,
            Fault::TooManyEdges | Fault::TooManyThreads => 37,
            Fault::MissingKey | Fault::MissingColumn | Fault::MissingCell => 38,
            Fault::NoSum => 39,
        }
    }

    /// Puts the fault into a DCFG with a process. A DCFG that has a fault already
    /// may have no place left for it.
    pub fn put(self, random: &mut Random, top: &mut Value) {
        match self {
            Fault::Deep => values::deep(random, top),
            Fault::RepeatedKey => names::repeated_key(random, top),
            Fault::RepeatedColumn => names::repeated_column(random, top),
            Fault::WrongKind => values::wrong_kind(random, top),
            Fault::IdOutside => values::id_outside(random, top),
            Fault::OwnIdRepeated => values::own_id_repeated(random, top),
            Fault::TooManyEdges => {
                let count = 4097 + random.index(3);
                fill_edges(random, top, count);
            }
            Fault::TooManyThreads => {
                let count = 257 + random.index(3);
                fill_threads(random, top, count);
            }
            Fault::MissingKey => names::missing_key(random, top),
            Fault::MissingColumn => names::missing_column(random, top),
            Fault::MissingCell => names::missing_cell(random, top),
            Fault::NoSum => amounts::no_sum(random, top),
        }
    }
}

/// One of the values with such a role that is still of its kind.
fn one(random: &mut Random, top: &Value, roles: &[Role]) -> Option<Way> {
    let ways =
        top.ways(&|value| roles.contains(&value.role) && !matches!(value.form, Form::Raw(_)));
    match ways.len() {
        0 => None,
        count => Some(ways[random.index(count)].clone()),
    }
}
