//! What a run has seen.

use crate::call::Call;
use crate::edges::{self, Case, EDGES};
use crate::plan::{Kind, SMALL};
use harness::counts::{by_order, Table, ORDERS};
use harness::entries;
use harness::order;
use harness::record;
use harness::state::At;
use second::log_writer::State;
use second::order::Order;
use second::record::Record;
use std::collections::HashSet;

/// The calls, and what each can answer. The odd ones are those in other states
/// than a session's own, or with less of the output.
const CALLS: [(&str, &[usize]); 7] = [
    ("start", entries::START),
    ("open", entries::OPEN),
    ("add", entries::ADD),
    ("close", entries::CLOSE),
    ("odd open", entries::OPEN),
    ("odd add", entries::ADD),
    ("odd close", entries::CLOSE),
];
/// How many rows the odd ones lie behind the others.
const ODD: usize = 3;

/// What adding a record of this name can answer.
fn can_answer(record: &str) -> &'static [usize] {
    match record {
        "NewBuffer" | "EndOfBuffer" | "WallTimeMarker" | "action above 3" => &[7],
        "Entry" | "Exit" | "Tail_Exit" | "Entry_Args" => entries::ADD,
        _ => &[0, 7, 15],
    }
}

/// What was read back.
const READ: [&str; 5] = ["logs", "logs with buffers", "records", "events", "bytes"];

pub struct Counts {
    /// Sequences by kind and order.
    pub kinds: Table,
    calls: Table,
    added: Table,
    /// Calls at each edge; then odd states that only the limit of 16,777,216
    /// bytes shuts out, rounds of outputs of every small length, and calls taken
    /// in a session's own state but for the order.
    edges: Table,
    read: Table,
    /// The lengths that are missing in this round of each order.
    lengths: [HashSet<usize>; 2],
}

/// The place of a call in `CALLS`.
fn row(call: &Call) -> usize {
    match call {
        Call::Start(_) => 0,
        Call::Open(_) => 1,
        Call::Add { .. } => 2,
        Call::Close => 3,
    }
}

fn refusal(answer: &Result<State, u8>) -> usize {
    usize::from(answer.err().unwrap_or(0))
}

impl Counts {
    pub fn new() -> Counts {
        let edges = EDGES.iter().map(|(name, _)| *name);
        let kinds = Kind::ALL.map(|kind| format!("{kind:?}"));
        let records = record::NAMES.map(|name| (name, can_answer(name)));
        let others = [
            "odd state past 16,777,216: 7",
            "every length up to 300",
            "in the other order: taken",
        ];
        Counts {
            kinds: Table::grid("sequences by kind", &ORDERS, kinds),
            calls: Table::refusals_by_order("refusals by call", CALLS),
            added: Table::refusals_by_order("refusals of add", records),
            edges: Table::grid("calls at an edge", &ORDERS, edges.chain(others)),
            read: Table::grid("read back", &ORDERS, READ),
            lengths: [0; 2].map(|_| (0..=SMALL).collect()),
        }
    }

    /// A call in the session's own state.
    pub fn call(&mut self, case: &Case) {
        let number = refusal(case.answer);
        self.calls
            .count(by_order(row(case.call), case.order), number);
        if let Call::Add { fields, .. } = case.call {
            self.added
                .count(by_order(fields.name(), case.order), number);
        }
        for (edge, (_, lies_there)) in EDGES.iter().enumerate() {
            let there = u64::from(lies_there(case));
            self.edges.add(edge, case.order as usize, there);
        }
    }

    pub fn odd_call(&mut self, call: &Call, at: &At, length: usize, answer: &Result<State, u8>) {
        let order = order::of(at.order);
        self.calls
            .count(by_order(ODD + row(call), order), refusal(answer));
        let past = u64::from(edges::is_past(call, at, length));
        self.edges.add(EDGES.len(), order as usize, past);
    }

    /// An odd state in which a call was taken, beside the session's own.
    pub fn odd_order(&mut self, own: &State, at: &At) {
        let order = own.order.other();
        if at.state() == (State { order, ..*own }) {
            self.edges.count(EDGES.len() + 2, own.order as usize);
        }
    }

    /// The length of an output.
    pub fn output(&mut self, order: Order, length: usize) {
        let missing = &mut self.lengths[order as usize];
        missing.remove(&length);
        if missing.is_empty() {
            *missing = (0..=SMALL).collect();
            self.edges.count(EDGES.len() + 1, order as usize);
        }
    }

    pub fn read_back(&mut self, order: Order, length: usize, records: &[(Record, Vec<u8>)]) {
        let is_event = |record: &Record| matches!(record, Record::CustomEvent { .. });
        let events = records.iter().filter(|(record, _)| is_event(record));
        let sums = [
            1,
            usize::from(!records.is_empty()),
            records.len(),
            events.count(),
            length,
        ];
        for (row, sum) in sums.into_iter().enumerate() {
            self.read.add(row, order as usize, sum as u64);
        }
    }

    pub fn sequences(&self) -> u64 {
        self.kinds.sum()
    }

    pub fn calls(&self) -> u64 {
        self.calls.sum()
    }

    pub fn tables(&self) -> [&Table; 5] {
        [
            &self.kinds,
            &self.calls,
            &self.added,
            &self.edges,
            &self.read,
        ]
    }
}
