//! What a run has seen.

use harness::counts::{by_order, Table, ORDERS};
use harness::entries;
use harness::record;
use logs::generate::Kind;
use second::order::Order;

/// The entries, and what each can answer. A walk and a step that are over
/// count as none; odd steps are those from positions that no walk need reach.
const ENTRIES: [(&str, &[usize]); 5] = [
    ("header", entries::HEADER),
    ("record reader", entries::RECORD_READER),
    ("walk", entries::WALK),
    ("odd step", entries::WALK),
    ("record writer", entries::RECORD_WRITER),
];
pub const HEADER: usize = 0;
pub const READER: usize = 1;
pub const WALK: usize = 2;
pub const ODD_STEP: usize = 3;
const WRITER: usize = 4;

/// What the record writer can answer to a record of this name.
fn can_answer(record: &str) -> &'static [usize] {
    match record {
        "Entry" | "Exit" | "Tail_Exit" | "Entry_Args" => &[0, 15, 16],
        "action above 3" => &[6],
        _ => &[0, 15],
    }
}

/// What else was met.
const MET: [&str; 5] = [
    "walked records",
    "odd steps over",
    "events",
    "answers",
    "steps in a turned log",
];
pub const WALKED: usize = 0;
pub const OVER: usize = 1;
pub const EVENTS: usize = 2;
pub const ANSWERS: usize = 3;
pub const TURNED: usize = 4;

pub struct Counts {
    /// Inputs by kind and order; the last row is for the samples.
    pub kinds: Table,
    refusals: Table,
    written: Table,
    met: Table,
}

impl Counts {
    pub fn new() -> Counts {
        let mut kinds = Kind::ALL.map(|kind| format!("{kind:?}")).to_vec();
        kinds.push("samples".to_string());
        let records = record::NAMES.map(|name| (name, can_answer(name)));
        Counts {
            kinds: Table::grid("inputs by kind", &ORDERS, kinds),
            refusals: Table::refusals_by_order("refusals by entry", ENTRIES),
            written: Table::refusals_by_order("of the record writer", records),
            met: Table::grid("met", &ORDERS, MET),
        }
    }

    /// A number that an entry answered for a log of this order.
    pub fn answered(&mut self, entry: usize, order: Order, number: usize) {
        self.refusals.count(by_order(entry, order), number);
    }

    /// Something else met so many times in logs of this order.
    pub fn met(&mut self, what: usize, order: Order, times: u64) {
        self.met.add(what, order as usize, times);
    }

    /// A record and its number by the record writer.
    pub fn written(&mut self, record: usize, order: Order, number: usize) {
        self.answered(WRITER, order, number);
        self.met(ANSWERS, order, 1);
        self.written.count(by_order(record, order), number);
    }

    pub fn tables(&self) -> [&Table; 4] {
        [&self.kinds, &self.refusals, &self.written, &self.met]
    }
}
