//! A stream with its table, and what it answers.

use crate::replay::log::OLD;
use second::order::Order;
use second::replay::{self, TABLE};
use second::stream::{Answer, Stream};

/// A stream that is always lent the same table, which is longer than it must be.
#[derive(Clone)]
pub struct Fed {
    pub stream: Stream,
    pub table: Vec<u64>,
}

impl Fed {
    pub fn start(order: Order) -> Fed {
        Fed {
            stream: Stream::start(order),
            table: vec![OLD; TABLE + 3],
        }
    }

    /// A little-endian stream that was fed this, and answered that there is more.
    pub fn with(log: &[u8]) -> Fed {
        let mut fed = Fed::start(Order::Little);
        assert_eq!(fed.feed(log), Answer::More);
        fed
    }

    pub fn feed(&mut self, read: &[u8]) -> Answer {
        self.stream.feed(read, &mut self.table)
    }

    pub fn end(&mut self) -> Answer {
        self.stream.end(&mut self.table)
    }

    /// The rows, behind which all that is written must be zero.
    pub fn rows(&self) -> Vec<[u64; 6]> {
        let (written, past) = self.table.split_at(TABLE);
        assert_eq!(past, [OLD; 3]);
        let mut rows: Vec<[u64; 6]> = Vec::new();
        for row in written.chunks(6) {
            rows.push(row.try_into().expect("six numbers"));
        }
        // A row that stands has been entered.
        while rows.last().is_some_and(|row| *row == [0; 6]) {
            rows.pop();
        }
        rows
    }

    /// The table is as after a refusal.
    pub fn is_clear(&self) -> bool {
        self.rows().is_empty()
    }
}

/// What a stream answers that is fed this in one read, and then told the end: both
/// answers.
pub fn told(log: &[u8]) -> (Answer, Answer) {
    let mut fed = Fed::start(Order::Little);
    (fed.feed(log), fed.end())
}

/// A refusal.
pub fn refused(number: u8, place: u64) -> Answer {
    Answer::Told(crate::replay::log::refused(number, place))
}

/// A report.
pub fn report(rows: u64, buffers: u64, records: u64, open: u64) -> Answer {
    Answer::Told(crate::replay::log::report(rows, buffers, records, open))
}

/// The lines that a program prints for an answer.
pub fn lines(answer: Answer, table: &[u64]) -> String {
    match answer {
        Answer::More => "more\n".to_string(),
        Answer::Told(answer) => replay::lines_of(&answer, table),
    }
}
