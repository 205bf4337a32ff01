//! What a run has seen.

use crate::cuts::Way;
use crate::driver::Told;
use crate::times::End;
use harness::answer;
use harness::counts::{by_order, Table, ORDERS};
use harness::entries;
use second::header::LONGEST;
use second::order::Order;
use second::replay::Answer;

/// Logs by how they do in tests 1 to 4, and when they are refused.
const ENDS: [&str; 9] = [
    "1 to 4 pass, accepted",
    "1 to 4 pass, refused",
    "fail 1",
    "fail 2",
    "fail 3",
    "fail 4 by size",
    "fail 4 by length, refused before",
    "fail 4 by length, at the end",
    "fail 1 as whole logs alone",
];

/// Those around 2^64 - 1 bytes long.
const FAR: [&str; 4] = ["20", "refused before", "cut short", "accepted"];

pub struct Counts {
    /// Logs by kind and order; the last row is for the samples.
    pub kinds: Table,
    far: Table,
    ways: Table,
    ends: Table,
    told: Table,
}

impl Counts {
    pub fn new() -> Counts {
        let ways = Way::ALL.map(|way| format!("{way:?}"));
        let cut = ["samples, cut in two".to_string()];
        let told = [("reads", entries::FEED), ("ends", entries::END)];
        Counts {
            kinds: Table::kinds("samples"),
            far: Table::grid("logs of about 2^64 bytes", &ORDERS, FAR),
            ways: Table::grid("ways to cut", &ORDERS, ways.into_iter().chain(cut)),
            ends: Table::grid("logs by their ends", &ORDERS, ENDS),
            told: Table::refusals_by_order("refusals that end a stream", told),
        }
    }

    /// A log of this length that was cut in this way.
    pub fn log(&mut self, order: Order, length: usize, way: Way, end: End, told: &Told) {
        self.ways.count(way as usize, order as usize);
        if length > LONGEST && matches!(end, End::Whole(_)) {
            self.ends.count(8, order as usize);
        }
        self.ended(order, end, told);
    }

    /// A sample that was cut in two.
    pub fn cut(&mut self, order: Order, end: End, told: &Told) {
        self.ways.count(Way::ALL.len(), order as usize);
        self.ended(order, end, told);
    }

    /// A log around 2^64 - 1 bytes long.
    pub fn far(&mut self, order: Order, told: &Told) {
        let row = match (told.answer, told.at_end) {
            (Answer::Refused { number: 20, .. }, _) => 0,
            (Answer::Refused { .. }, false) => 1,
            (Answer::Refused { .. }, true) => 2,
            (Answer::Report { .. }, _) => 3,
        };
        self.far.count(row, order as usize);
    }

    fn ended(&mut self, order: Order, end: End, told: &Told) {
        let row = match end {
            End::Whole(Answer::Report { .. }) => 0,
            End::Whole(Answer::Refused { .. }) => 1,
            End::Header(number) => 1 + usize::from(number),
            End::Length => 6 + usize::from(told.at_end),
        };
        self.ends.count(row, order as usize);
        let [number, ..] = answer::replayed(&told.answer);
        let row = by_order(usize::from(told.at_end), order);
        self.told.count(row, number as usize);
    }

    pub fn tables<'a>(&'a self, calls: &'a Table) -> [&'a Table; 6] {
        [
            &self.kinds,
            &self.ways,
            &self.ends,
            &self.told,
            &self.far,
            calls,
        ]
    }
}
