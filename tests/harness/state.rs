//! Positions of the walk and states of the log writer as the numbers that the
//! proved code takes, and what a log is started and a buffer opened with.

use crate::order;
use second::log_writer;
use second::walk::{Position, Stage};

/// The least number that stands for no thread seen yet.
pub const NO_THREAD: u64 = 65_536;

/// A position or a state. A stage above 4 counts as 4; an order of any number but
/// 0 is big-endian.
#[derive(Debug, Clone, Copy, PartialEq, Eq, Default)]
pub struct At {
    pub order: u32,
    pub size: u64,
    pub thread: u64,
    pub place: u64,
    pub end: u64,
    pub stage: u64,
}

impl From<&Position> for At {
    fn from(position: &Position) -> At {
        At {
            order: order::number(position.order),
            size: position.size,
            thread: position.thread.map_or(NO_THREAD, u64::from),
            place: position.place,
            end: position.end,
            stage: position.stage as u64,
        }
    }
}

impl From<&log_writer::State> for At {
    fn from(state: &log_writer::State) -> At {
        At::from(&Position {
            order: state.order,
            place: state.place,
            end: state.end,
            size: state.size,
            stage: state.stage,
            thread: Some(state.thread),
        })
    }
}

impl At {
    pub fn position(&self) -> Position {
        Position {
            order: order::of(self.order),
            place: self.place,
            end: self.end,
            size: self.size,
            stage: match self.stage {
                0 => Stage::Between,
                1 => Stage::WallTime,
                2 => Stage::Cpu,
                3 => Stage::Body,
                _ => Stage::Arguments,
            },
            thread: u16::try_from(self.thread).ok(),
        }
    }

    /// The state of a log writer, whose thread is taken modulo 65,536.
    pub fn state(&self) -> log_writer::State {
        let position = self.position();
        log_writer::State {
            order: position.order,
            size: position.size,
            thread: self.thread as u16,
            place: position.place,
            end: position.end,
            stage: position.stage,
        }
    }
}

/// What a log is started with. A flag of any number but 0 is set.
#[derive(Debug, Clone, Copy)]
pub struct Start {
    pub order: u32,
    pub frequency: u64,
    pub constant_tsc: u64,
    pub nonstop_tsc: u64,
    pub size: u64,
    pub thread: u64,
}

impl Start {
    pub fn second(&self) -> log_writer::Start {
        log_writer::Start {
            order: order::of(self.order),
            frequency: self.frequency,
            constant_tsc: self.constant_tsc != 0,
            nonstop_tsc: self.nonstop_tsc != 0,
            size: self.size,
            thread: self.thread as u16,
        }
    }
}

/// What a buffer is opened with.
#[derive(Debug, Clone, Copy)]
pub struct Opening {
    pub seconds: u64,
    pub micros: u64,
    pub cpu: u64,
    pub tsc: u64,
}

impl Opening {
    pub fn second(&self) -> log_writer::Opening {
        log_writer::Opening {
            seconds: self.seconds,
            micros: self.micros as u32,
            cpu: self.cpu as u16,
            tsc: self.tsc,
        }
    }
}
