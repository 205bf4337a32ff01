//! What a run has seen.

use crate::overwriting::Way;
use harness::counts::{by_order, Table, ORDERS};
use harness::entries;
use second::order::Order;
use second::replay::Answer;
use second::scrub::{self, Part};

/// The least bytes of a log of about 16 MiB.
const HUGE: usize = 16_000_000;

/// What can be answered: by the scrubber, by the replay to both logs of a pair
/// of well-formed ones, and to both of a pair of refused ones, and by the
/// scrubber to the log in the other order.
const ANSWERS: [(&str, &[usize]); 4] = [
    ("scrubber", entries::SCRUBBER),
    ("pairs, replayed", entries::REPLAY_WELL_FORMED),
    ("refused pairs, replayed", entries::REPLAY_REFUSED),
    ("scrubber, turned", entries::SCRUBBER),
];
const SCRUBBED: usize = 0;
const PAIRS: usize = 1;
const REFUSED: usize = 2;
const TURNED: usize = 3;

/// The refusal of a table that is too short.
const NO_TABLE: usize = 14;

/// Of hidden bytes in well-formed logs: all, those that weren't zero, and those
/// that a pair's other log has another value in.
const HIDDEN: [&str; 3] = ["bytes", "not zero", "changed"];

pub struct Counts {
    /// Logs by kind and order; the last row is for the samples.
    pub kinds: Table,
    answers: Table,
    /// Pairs of well-formed logs by what was overwritten; the last row is for
    /// those of about 16 MiB.
    ways: Table,
    /// By kind of the hidden bytes and order.
    hidden: Table,
}

impl Counts {
    pub fn new() -> Counts {
        let mut ways = Way::ALL.map(|way| format!("{way:?}")).to_vec();
        ways.push("in about 16 MiB".to_string());
        let hidden = scrub::Kind::ALL.map(|kind| ORDERS.map(|order| format!("{kind:?}, {order}")));
        Counts {
            kinds: Table::kinds("samples"),
            answers: Table::refusals_by_order("refusals", ANSWERS),
            ways: Table::grid("pairs by what is overwritten", &ORDERS, ways),
            hidden: Table::grid("hidden", &HIDDEN, hidden.concat()),
        }
    }

    pub fn scrubbed(&mut self, number: u8, log: &[u8], order: Order, hidden: &[Part]) {
        self.answer(SCRUBBED, order, number.into());
        if number != 0 {
            return;
        }
        for part in hidden {
            let bytes = &log[part.bytes.clone()];
            let dirty = bytes.iter().filter(|byte| **byte != 0).count();
            let row = by_order(part.kind as usize, order);
            self.hidden.add(row, 0, bytes.len() as u64);
            self.hidden.add(row, 1, dirty as u64);
        }
    }

    /// A pair of well-formed logs, which counts where they differ.
    pub fn pair(
        &mut self,
        logs: [&[u8]; 2],
        order: Order,
        hidden: &[Part],
        replayed: &Answer,
        way: Way,
    ) {
        if logs[0] == logs[1] {
            return;
        }
        self.answer(PAIRS, order, refusal(replayed));
        self.ways.count(way as usize, order as usize);
        if logs[0].len() >= HUGE {
            self.ways.count(Way::ALL.len(), order as usize);
        }
        for part in hidden {
            let [one, other] = logs.map(|log| &log[part.bytes.clone()]);
            let changed = one.iter().zip(other).filter(|(one, other)| one != other);
            let row = by_order(part.kind as usize, order);
            self.hidden.add(row, 2, changed.count() as u64);
        }
    }

    /// A pair of refused logs, which counts where they differ and the tables
    /// were long enough.
    pub fn refused(&mut self, logs: [&[u8]; 2], order: Order, replayed: &Answer) {
        let number = refusal(replayed);
        if logs[0] != logs[1] && number != NO_TABLE {
            self.answer(REFUSED, order, number);
        }
    }

    /// A log of this order that was turned into the other one.
    pub fn turned(&mut self, number: u8, order: Order) {
        self.answer(TURNED, order, number.into());
    }

    fn answer(&mut self, row: usize, order: Order, number: usize) {
        self.answers.count(by_order(row, order), number);
    }

    /// Logs, pairs of well-formed ones, and pairs of refused ones.
    pub fn sums(&self) -> [u64; 3] {
        let sum = |row, order| self.answers.sum_of(by_order(row, order));
        [SCRUBBED, PAIRS, REFUSED].map(|row| sum(row, Order::Little) + sum(row, Order::Big))
    }

    pub fn tables(&self) -> [&Table; 4] {
        [&self.kinds, &self.answers, &self.ways, &self.hidden]
    }
}

fn refusal(answer: &Answer) -> usize {
    match *answer {
        Answer::Refused { number, .. } => usize::from(number),
        Answer::Report { .. } => 0,
    }
}
