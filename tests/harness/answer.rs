//! Answers as lists of numbers. The proved code gives one number of a list at a
//! time, and 0 past its end; the lists here are what the second program says.

use crate::record::Fields;
use crate::state::At;
use second::header::Header;
use second::log_writer::State;
use second::reader::Read;
use second::replay::Answer;
use second::walk::Step;

/// The first number where the walk is over.
const OVER: u64 = 1000;

/// Asks for these numbers of a list; the text tells of the first other one.
pub fn same(
    list: &[u64],
    asked: impl IntoIterator<Item = u64>,
    mut ask: impl FnMut(u64) -> u64,
) -> Result<(), String> {
    asked.into_iter().try_for_each(|which| {
        let expected = list.get(which as usize).copied().unwrap_or(0);
        is(which, ask(which), expected)
    })
}

/// Every number of a list, the one behind it and the very last one.
pub fn all(list: &[u64]) -> impl Iterator<Item = u64> {
    (0..=list.len() as u64).chain([u64::MAX])
}

/// The longest event of which every byte is asked for.
const SHORT: usize = 40;

/// Asks for an event's length, for each byte of it or, of a long one, for some
/// and the last, and for numbers past its end.
pub fn same_event(event: &[u8], mut ask: impl FnMut(u64) -> u64) -> Result<(), String> {
    let length = event.len() as u64;
    let last = (event.len() > SHORT).then_some(length);
    let some = (0..=length).step_by(1 + event.len() / (SHORT + 1));
    let mut asked = some.chain(last).chain([length + 1, u64::MAX]);
    asked.try_for_each(|which| {
        let expected = match which {
            0 => length,
            _ => event.get(which as usize - 1).copied().map_or(0, u64::from),
        };
        is(which, ask(which), expected)
    })
}

fn is(which: u64, number: u64, expected: u64) -> Result<(), String> {
    match number == expected {
        true => Ok(()),
        false => Err(format!("number {which} is {number}, expected {expected}")),
    }
}

/// The header's tests.
pub fn header(answer: &Result<Header, u8>) -> [u64; 5] {
    match answer {
        Ok(header) => [
            0,
            header.constant_tsc.into(),
            header.nonstop_tsc.into(),
            header.frequency,
            header.buffer_size,
        ],
        Err(number) => [(*number).into(), 0, 0, 0, 0],
    }
}

/// The record reader.
pub fn read(answer: &Read) -> [u64; 6] {
    match answer {
        Read::Found { record, next } => {
            let Fields { kind, values } = record.into();
            [0, *next, kind, values[0], values[1], values[2]]
        }
        Read::Refused { number, place } => [(*number).into(), *place, 0, 0, 0, 0],
    }
}

/// A step of the walk.
pub fn step(answer: &Step) -> [u64; 11] {
    let mut list = [0; 11];
    match answer {
        Step::Over => list[0] = OVER,
        Step::Refused { number, place } => list[..2].copy_from_slice(&[(*number).into(), *place]),
        Step::Found { record, next } => {
            let at = At::from(next);
            let Fields { kind, values } = record.into();
            list[1..6].copy_from_slice(&[at.place, at.end, at.size, at.stage, at.thread]);
            list[6] = kind;
            list[7..10].copy_from_slice(&values);
            list[10] = at.order.into();
        }
    }
    list
}

/// The record writer: the number of bytes written.
pub fn written(answer: &Result<usize, u8>) -> [u64; 2] {
    match answer {
        Ok(size) => [0, *size as u64],
        Err(number) => [(*number).into(), 0],
    }
}

/// A call of the log writer: the next state.
pub fn called(answer: &Result<State, u8>) -> [u64; 7] {
    match answer {
        Ok(state) => {
            let at = At::from(state);
            let order = at.order.into();
            [0, at.size, at.thread, at.place, at.end, at.stage, order]
        }
        Err(number) => [(*number).into(), 0, 0, 0, 0, 0, 0],
    }
}

/// The scrubber: the place of a refusal.
pub fn scrubbed(answer: &Result<(), (u8, u64)>) -> [u64; 2] {
    match answer {
        Ok(()) => [0, 0],
        Err((number, place)) => [(*number).into(), *place],
    }
}

/// The replay.
pub fn replayed(answer: &Answer) -> [u64; 5] {
    match *answer {
        Answer::Report {
            rows,
            buffers,
            records,
            open,
        } => [0, rows, buffers, records, open],
        Answer::Refused { number, place } => [number.into(), place, 0, 0, 0],
    }
}
