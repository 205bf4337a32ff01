//! Tables of about as many rows as the proved walk sorts at a time.

use crate::codes::{ONE, ZERO};
use crate::draft::{numbers, shuffle, Row};
use crate::Case;
use logs::random::Random;

/// Rows that are sorted at a time.
pub const PART: usize = 65_536;

/// Rows of an edge: as many as codes of this length.
const CODE: usize = 11;
const ROWS: usize = 1 << CODE;
const STEPS: usize = 40;

/// How many rows a large table has, and which of them comes once more behind
/// them.
#[derive(Debug, Clone, Copy, PartialEq, Eq)]
pub struct Large {
    pub rows: usize,
    pub again: Option<usize>,
}

impl Large {
    #[rustfmt::skip]
    pub const ALL: [Large; 5] = [
        Large { rows: PART, again: None },
        Large { rows: PART - 1, again: Some(7) },
        Large { rows: PART + 1, again: None },
        Large { rows: PART, again: Some(PART - 1) },
        Large { rows: PART + 1_500, again: Some(PART + 3) },
    ];
}

/// A case with so many rows, in any order.
pub fn large(seed: u64, large: Large) -> Case {
    let random = &mut Random::new(seed);
    let edges = large.rows.div_ceil(ROWS) as u64;
    let mut rows: Vec<Row> = (0..large.rows)
        .map(|index| row(random, index, edges))
        .collect();
    let mut route: Vec<Row> = Vec::new();
    for _ in 0..STEPS {
        let edge = route.last().map_or(1, |row| row.list[0]);
        let first = (edge - 1) as usize * ROWS;
        let own = ROWS.min(rows.len() - first);
        route.push(rows[first + random.index(own)].clone());
    }
    shuffle(random, &mut rows);
    if let Some(place) = large.again {
        rows.push(rows[place].clone());
    }
    let characters = route.iter().flat_map(|row| &row.code);
    Case {
        start: 1,
        bits: characters.map(|one| *one as u8).collect(),
        wanted: STEPS as u64,
        length: STEPS,
        table: rows.iter().flat_map(numbers).collect(),
    }
}

/// Every code of an edge, then of the next.
fn row(random: &mut Random, index: usize, edges: u64) -> Row {
    let code = (0..CODE).map(|bit| match index >> bit & 1 {
        0 => ZERO,
        _ => ONE,
    });
    Row {
        edge: (index / ROWS) as u64 + 1,
        code: code.collect(),
        list: vec![1 + random.below(edges)],
    }
}
