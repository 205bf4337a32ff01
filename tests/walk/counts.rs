//! What a run has seen.

use harness::counts::Table;
use harness::entries;
use tables::{Case, Kind, Large, PART};

const GENERATED: usize = 0;
const PARTS: usize = 1;
const LARGE: usize = 2;

/// What can be answered: to generated cases, and to large tables by whether they
/// have more rows than are sorted at a time.
const ANSWERS: [(&str, &[usize]); 3] = [
    ("generated", entries::TRANSITIONS),
    ("over 65,536 rows", &[0, 40]),
    ("65,536 rows", &[0, 40]),
];

/// Accepted walks by how many edges are wanted.
const WANTED: [&str; 4] = ["none", "one", "2 to 99", "100 and more"];

pub struct Counts {
    pub answers: Table,
    kinds: Table,
    wanted: Table,
}

impl Counts {
    pub fn new() -> Counts {
        let kinds = Kind::ALL.map(|kind| format!("{kind:?}"));
        Counts {
            answers: Table::refusals("refusals", ANSWERS),
            kinds: Table::counting("kind", "walks", kinds),
            wanted: Table::counting("accepted, edges wanted", "walks", WANTED),
        }
    }

    pub fn count(&mut self, kind: Kind, case: &Case, number: u32) {
        self.answers.count(GENERATED, number as usize);
        self.kinds.count(kind as usize, 0);
        if number == 0 {
            let row = match case.wanted {
                0 => 0,
                1 => 1,
                2..=99 => 2,
                _ => 3,
            };
            self.wanted.count(row, 0);
        }
    }

    pub fn large(&mut self, large: Large, number: u32) {
        let rows = large.rows + usize::from(large.again.is_some());
        let row = if rows > PART { PARTS } else { LARGE };
        self.answers.count(row, number as usize);
    }

    pub fn tables(&self) -> [&Table; 3] {
        [&self.kinds, &self.answers, &self.wanted]
    }
}
