//! The proved stream, as a C program has it: its state is lent numbers.

use crate::streaming::Streaming;
use harness::proved::{self, Told};
use second::order::Order;
use second::replay;
use second::stream::Answer;

/// The numbers of a state, and the answer for more, as the header has them.
pub const NUMBERS: usize = 1138;
pub const MORE: u32 = 255;

/// Where in a state the bytes so far stand, and those that are still to be skipped.
const OFFSET: usize = 1;
const SKIP: usize = 3;

pub struct Proved {
    pub state: Vec<u64>,
}

impl Proved {
    /// What stood in the state before is no part of it.
    pub fn start(order: Order) -> Proved {
        let mut state = vec![u64::MAX; NUMBERS];
        let number = proved::stream_start(&mut state, order as u32);
        assert_eq!(number, 0, "a state of its length");
        Proved { state }
    }
}

/// An answer of the second program's form.
pub fn answer(told: Told) -> Answer {
    let [rows, buffers, records, open] = told.counts;
    match told.answer {
        MORE => {
            assert_eq!((told.counts, told.place), ([0; 4], 0), "zeros beside more");
            Answer::More
        }
        0 => {
            assert_eq!(told.place, 0, "no place beside a report");
            Answer::Told(replay::Answer::Report {
                rows,
                buffers,
                records,
                open,
            })
        }
        number => {
            assert_eq!(told.counts, [0; 4], "zeros beside a refusal");
            Answer::Told(replay::Answer::Refused {
                number: number as u8,
                place: told.place,
            })
        }
    }
}

impl Streaming for Proved {
    fn feed(&mut self, read: &[u8], table: &mut [u64]) -> Answer {
        answer(proved::stream_feed(&mut self.state, read, table))
    }

    fn end(&mut self, table: &mut [u64]) -> Answer {
        answer(proved::stream_end(&mut self.state, table))
    }

    fn pass(&mut self, bytes: u64) {
        self.state[OFFSET] += bytes;
        self.state[SKIP] -= bytes;
    }
}
