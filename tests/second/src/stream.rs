//! A log that comes in reads of any length. Paper 02, CR 1: a stream is started,
//! fed each read, and told the end; each of these calls is lent the table.
//!
//! A call goes by the answer that has ended the stream, then 14, then 20, which
//! the end doesn't give, then the bytes. 22 has its places before all of these
//! and behind 14: it is for states and rows that no call left. A stream here
//! keeps both by value, where nothing else can write to them.

mod log;

use crate::order::Order;
use crate::replay::{self, TABLE};
use log::{Fault, Log};

/// The answer of a call.
#[derive(Debug, Clone, Copy, PartialEq, Eq)]
pub enum Answer {
    /// Neither a refusal nor the end.
    More,
    /// As a whole log's.
    Told(replay::Answer),
}

/// What is kept from call to call.
#[derive(Clone)]
pub struct Stream {
    log: Log,
    /// The answer that has ended the stream, once there is one.
    ended: Option<replay::Answer>,
}

impl Stream {
    /// A stream of a log of this byte order.
    pub fn start(order: Order) -> Stream {
        Stream {
            log: Log::start(order),
            ended: None,
        }
    }

    /// Takes a read of any length.
    pub fn feed(&mut self, read: &[u8], table: &mut [u64]) -> Answer {
        self.call(table, |log| log.take(read).map(|()| None))
    }

    /// Takes the end.
    pub fn end(&mut self, table: &mut [u64]) -> Answer {
        self.call(table, |log| log.end().map(Some))
    }

    /// Takes so many bytes of an event or of a skipped rest, of which more must be
    /// to come. They are only counted, so that nobody need make them.
    pub fn pass(&mut self, bytes: u64) {
        self.log.pass(bytes);
    }

    /// A call that takes something, which ends the stream with a report or a
    /// fault.
    fn call(
        &mut self,
        table: &mut [u64],
        take: impl FnOnce(&mut Log) -> Result<Option<replay::Answer>, Fault>,
    ) -> Answer {
        // "14 and 22 change nothing, nor do calls after any other refusal or the
        // end, which give the same answer whatever they are lent."
        if let Some(answer) = self.ended {
            return Answer::Told(answer);
        }
        let Some(written) = table.get_mut(..TABLE) else {
            return Answer::Told(refused((14, 0)));
        };
        match take(&mut self.log) {
            Ok(report) => {
                self.log.calls.write(written);
                self.ended = report;
            }
            Err(fault) => {
                written.fill(0);
                self.ended = Some(refused(fault));
            }
        }
        self.ended.map_or(Answer::More, Answer::Told)
    }
}

fn refused((number, place): Fault) -> replay::Answer {
    replay::Answer::Refused { number, place }
}
