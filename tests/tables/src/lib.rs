//! Transition tables and walks of them from a seed, for comparing the proved
//! walk with the second one. The same kind and seed give the same case
//! everywhere.
//!
//! A kind names how the case was made: one fault may hide another.

#![forbid(unsafe_code)]

mod codes;
mod draft;
mod faults;
mod large;

use draft::{Draft, Shape};
use logs::random::Random;

pub use large::{large, Large, PART};

/// What is handed to a walk.
#[derive(Debug, Clone, PartialEq, Eq)]
pub struct Case {
    pub table: Vec<u64>,
    pub start: u64,
    pub bits: Vec<u8>,
    pub wanted: u64,
    /// Of the lent list.
    pub length: usize,
}

/// What a case was made as.
#[derive(Debug, Clone, Copy, PartialEq, Eq)]
pub enum Kind {
    /// A walk along rows with codes of which none begins another.
    Sound,
    /// Codes of up to 32 characters.
    Deep,
    /// Rows with empty codes.
    Single,
    /// Lists of up to 300 edges.
    LongLists,
    /// Up to 150 rows of an edge.
    Wide,
    /// Edges of 64 bits, some of which differ in one.
    AnyEdges,
    /// Nothing wanted, at times with bits.
    NothingWanted,
    /// More wanted than the list has.
    ShortList,
    /// A table that ends somewhere before its end.
    Cut,
    /// A code of over 32 characters.
    TooLong,
    /// A character of a code that is none of the two.
    Character,
    /// A row whose list is empty.
    EmptyList,
    /// Two rows of an edge where one code begins or equals the other.
    Clash,
    /// The length of a code or a list is a large number.
    Length,
    /// Any number of the table changed.
    Changed,
    /// An edge without row.
    NoRow,
    /// Bits that end too soon.
    BitsOut,
    /// Some characters of the bits changed.
    WrongBits,
    /// A wanted number inside a row's list.
    Past,
    /// Bits behind the walk.
    LeftOver,
    /// Several of these.
    Faults,
    /// Any numbers, from few.
    Garbage,
}

impl Kind {
    pub const ALL: [Kind; 22] = [
        Kind::Sound,
        Kind::Deep,
        Kind::Single,
        Kind::LongLists,
        Kind::Wide,
        Kind::AnyEdges,
        Kind::NothingWanted,
        Kind::ShortList,
        Kind::Cut,
        Kind::TooLong,
        Kind::Character,
        Kind::EmptyList,
        Kind::Clash,
        Kind::Length,
        Kind::Changed,
        Kind::NoRow,
        Kind::BitsOut,
        Kind::WrongBits,
        Kind::Past,
        Kind::LeftOver,
        Kind::Faults,
        Kind::Garbage,
    ];

    /// The kind of the case with this index in a run.
    pub fn at(index: u64) -> Kind {
        Kind::ALL[(index % Kind::ALL.len() as u64) as usize]
    }

    fn shape(self, random: &mut Random) -> Shape {
        match self {
            Kind::Sound => Shape::USUAL,
            Kind::Deep => Shape::DEEP,
            Kind::Single => Shape::SINGLE,
            Kind::LongLists => Shape::LONG_LISTS,
            Kind::Wide => Shape::WIDE,
            Kind::AnyEdges => Shape::ANY_EDGES,
            _ => match random.below(16) {
                0 => Shape::DEEP,
                1 => Shape::LONG_LISTS,
                2 if random.once_in(4) => Shape::WIDE,
                3 | 4 => Shape::ANY_EDGES,
                _ => Shape::USUAL,
            },
        }
    }
}

/// The case of this kind and seed.
pub fn case(kind: Kind, seed: u64) -> Case {
    let random = &mut Random::new(seed);
    if kind == Kind::Garbage {
        return garbage(random);
    }
    let shape = kind.shape(random);
    let mut draft = Draft::new(random, &shape);
    let kinds = match kind {
        Kind::Faults => faults::some(random),
        _ => vec![kind],
    };
    for kind in &kinds {
        faults::in_draft(random, *kind, &mut draft);
    }
    let mut case = draft.case(random);
    for kind in &kinds {
        faults::in_case(random, *kind, &mut case);
    }
    case
}

/// Few and small numbers, of which some happen to be a table.
fn garbage(random: &mut Random) -> Case {
    let few = [1, 0, 1, 48, 1, 49, 2, u64::MAX];
    let kinds = random.one_of(&[2, 4, 4, 6, few.len()]);
    let mut any = |most: usize| -> Vec<u64> {
        let length = random.index(most + 1);
        (0..length).map(|_| random.one_of(&few[..kinds])).collect()
    };
    let (table, bits) = (any(9), any(3));
    Case {
        table,
        start: random.one_of(&few[..kinds]),
        bits: bits.iter().map(|number| 48 + (*number % 3) as u8).collect(),
        wanted: random.below(4),
        length: 1 + random.index(4),
    }
}
