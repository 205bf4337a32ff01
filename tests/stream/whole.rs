//! A stream that knows the whole log beforehand, and of a read only its length.

use crate::streaming::Streaming;
use crate::times::{End, Times};
use second::replay::{self, TABLE};
use second::stream::Answer;

pub struct Whole<'a> {
    times: &'a Times,
    /// The bytes of the log that were taken.
    taken: u64,
    /// The bytes that were passed, which the log doesn't hold.
    passed: u64,
    /// The records that are judged, and their table.
    records: usize,
    table: Vec<u64>,
    ended: Option<replay::Answer>,
}

impl<'a> Whole<'a> {
    pub fn start(times: &'a Times) -> Whole<'a> {
        Whole {
            times,
            taken: 0,
            passed: 0,
            records: 0,
            table: vec![0; TABLE],
            ended: None,
        }
    }

    /// A call that takes so many bytes, or the end.
    fn call(&mut self, taken: Option<usize>, table: &mut [u64]) -> Answer {
        if let Some(answer) = self.ended {
            return Answer::Told(answer);
        }
        if table.len() < TABLE {
            return Answer::Told(refused(14, 0));
        }
        self.ended = match taken {
            Some(bytes) => self.take(bytes as u64),
            None => Some(self.at_end()),
        };
        let records = self.times.judged(self.taken);
        if let Some(replay::Answer::Refused { .. }) = self.ended {
            self.table.fill(0);
        } else if records > self.records {
            self.table = self.times.table(records);
            self.records = records;
        }
        table[..TABLE].copy_from_slice(&self.table);
        self.ended.map_or(Answer::More, Answer::Told)
    }

    /// The refusal that comes with a read of so many bytes.
    fn take(&mut self, bytes: u64) -> Option<replay::Answer> {
        let offset = u128::from(self.taken) + u128::from(self.passed);
        if offset + u128::from(bytes) > u128::from(u64::MAX) {
            return Some(refused(20, offset as u64));
        }
        self.taken += bytes;
        match self.times.fault(self.taken)? {
            // What was passed lies before all that is judged later.
            replay::Answer::Refused {
                number: number @ 5..,
                place,
            } => Some(refused(number, place + self.passed)),
            answer => Some(answer),
        }
    }

    fn at_end(&self) -> replay::Answer {
        match self.times.end() {
            End::Whole(answer) => answer,
            End::Header(number) => refused(number, 0),
            End::Length => refused(4, 0),
        }
    }
}

impl Streaming for Whole<'_> {
    fn feed(&mut self, read: &[u8], table: &mut [u64]) -> Answer {
        self.call(Some(read.len()), table)
    }

    fn end(&mut self, table: &mut [u64]) -> Answer {
        self.call(None, table)
    }

    fn pass(&mut self, bytes: u64) {
        self.passed += bytes;
    }
}

fn refused(number: u8, place: u64) -> replay::Answer {
    replay::Answer::Refused { number, place }
}
