//! What a run has seen.

use harness::answer;
use harness::counts::{by_order, Table, ORDERS};
use harness::entries;
use second::order::Order;
use second::replay::{Answer, TABLE};

/// Tables by their length, of how many logs all numbers were asked for, and how
/// many were turned into the other order and replayed again.
const TABLES: [&str; 5] = [
    "too short",
    "of 6,144 numbers",
    "longer",
    "all numbers asked",
    "turned logs",
];
/// What is summed up of accepted logs.
const SUMS: [&str; 4] = ["rows", "buffers", "records", "open calls"];

pub struct Counts {
    /// Logs by kind and order; the last row is for the samples.
    pub kinds: Table,
    refusals: Table,
    tables: Table,
    sums: Table,
}

impl Counts {
    pub fn new() -> Counts {
        Counts {
            kinds: Table::kinds("samples"),
            refusals: Table::refusals_by_order("refusals", [("replay", entries::REPLAY)]),
            tables: Table::grid("lent tables", &ORDERS, TABLES),
            sums: Table::grid("of accepted logs", &ORDERS, SUMS),
        }
    }

    pub fn answer(&mut self, order: Order, answer: &Answer, length: usize, whole: bool) {
        let [number, counts @ ..] = answer::replayed(answer);
        self.refusals.count(by_order(0, order), number as usize);
        if number == 0 {
            for (row, count) in counts.into_iter().enumerate() {
                self.sums.add(row, order as usize, count);
            }
        }
        let lent = usize::from(length >= TABLE) + usize::from(length > TABLE);
        self.tables.count(lent, order as usize);
        self.tables.add(3, order as usize, u64::from(whole));
    }

    /// A log of this order that was turned into the other one.
    pub fn turned(&mut self, order: Order) {
        self.tables.count(4, order as usize);
    }

    pub fn tables(&self) -> [&Table; 4] {
        [&self.kinds, &self.refusals, &self.tables, &self.sums]
    }
}
