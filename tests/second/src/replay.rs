//! The replay of the call stack. Paper 01, "Replay" for what it counts, and
//! "The numbered refusals" for the order of tests: 14, then 1 to 4, then at
//! each record the walk's tests and 9; then for an entry 11 and 12, for an
//! exit 10 and 13. Paper 02, CR 3, for what a tail exit closes, and CR 1 for
//! logs of any length.

use crate::header::{self, Header};
use crate::order::Order;
use crate::record::{Record, ENTRY_ARGS};
use crate::walk::{self, Step};
use std::collections::HashMap;

/// Numbers of a row: id, entered, closed, backward, abandoned, ticks.
pub const ROW: usize = 6;
/// The most rows: a 1,025th function id is refusal 12.
pub const ROWS: usize = 1024;
/// The numbers of the table that are written, and the fewest that it may have.
pub const TABLE: usize = ROW * ROWS;
/// The most open calls: a 257th is refusal 11.
pub const DEEPEST: usize = 256;
/// The most bytes of a log that the program takes.
pub const INPUT: usize = 65_536;

/// The action of an entry without arguments.
const ENTRY: u8 = 0;
/// The action of a tail exit.
const TAIL_EXIT: u8 = 2;

/// The replay's answer; the rows stand in the table.
#[derive(Debug, Clone, Copy, PartialEq, Eq)]
pub enum Answer {
    Report {
        rows: u64,
        buffers: u64,
        records: u64,
        open: u64,
    },
    Refused {
        number: u8,
        place: u64,
    },
}

/// Replays the log and writes the rows into the lent table. Takes any log and
/// any table.
pub fn replay(log: &[u8], order: Order, table: &mut [u64]) -> Answer {
    replay_after(header::check, log, order, table)
}

/// The same without 1's upper limit.
pub fn unlimited(log: &[u8], order: Order, table: &mut [u64]) -> Answer {
    replay_after(header::unlimited, log, order, table)
}

/// Tests 1 to 4.
type HeaderTests = fn(&[u8], Order) -> Result<Header, u8>;

/// Replays the log behind these tests of its header.
fn replay_after(tests: HeaderTests, log: &[u8], order: Order, table: &mut [u64]) -> Answer {
    // "Numbers past those are never touched."
    let Some(written) = table.get_mut(..TABLE) else {
        // "After 14 the counts are zero and the table is untouched."
        let (number, place) = (14, 0);
        return Answer::Refused { number, place };
    };
    let header = tests(log, order).map_err(|number| (number, 0));
    match header.and_then(|header| run(log, order, &header)) {
        Ok(state) => {
            state.write(written);
            state.report()
        }
        Err((number, place)) => {
            written.fill(0);
            Answer::Refused { number, place }
        }
    }
}

/// The state behind the last record, or the first fault's number and place.
fn run(log: &[u8], order: Order, header: &Header) -> Result<State, (u8, u64)> {
    let mut position = walk::start(header, order);
    let mut state = State::default();
    loop {
        match walk::next(log, position) {
            Step::Over => return Ok(state),
            Step::Refused { number, place } => return Err((number, place)),
            Step::Found { record, next } => {
                let place = position.place;
                state.take(&record).map_err(|number| (number, place))?;
                position = next;
            }
        }
    }
}

/// What is counted for one function id.
#[derive(Clone, Default)]
struct Row {
    id: u32,
    entered: u64,
    closed: u64,
    backward: u64,
    abandoned: u64,
    ticks: u64,
}

impl Row {
    fn numbers(&self) -> [u64; ROW] {
        [
            u64::from(self.id),
            self.entered,
            self.closed,
            self.backward,
            self.abandoned,
            self.ticks,
        ]
    }
}

/// An open call.
#[derive(Clone)]
struct Call {
    id: u32,
    /// The index of its id's row.
    row: usize,
    /// The clock's reading at its entry.
    opened: u64,
}

/// Where a replay stands between two records.
#[derive(Clone, Default)]
pub(crate) struct State {
    clock: u64,
    /// The open calls, the nearest one last.
    stack: Vec<Call>,
    /// The rows "in the order of first entry".
    rows: Vec<Row>,
    /// The index of each entered id's row.
    row_of: HashMap<u32, usize>,
    buffers: u64,
    records: u64,
}

impl State {
    /// One record that passed the walk's tests. The error is a refusal's
    /// number.
    pub(crate) fn take(&mut self, record: &Record) -> Result<(), u8> {
        match *record {
            Record::NewBuffer { .. } => self.buffers += 1,
            Record::NewCpuId { tsc, .. } | Record::TscWrap { tsc } => self.clock = tsc,
            Record::Function { action, id, delta } => self.function(action, id, delta)?,
            // "CustomEventMarker doesn't move it."
            Record::CustomEvent { .. } | Record::CallArgument { .. } => {}
            Record::WallTime { .. } | Record::EndOfBuffer => {}
        }
        self.records += 1;
        Ok(())
    }

    /// "A function record first adds tsc_delta to it", else 9.
    fn function(&mut self, action: u8, id: u32, delta: u32) -> Result<(), u8> {
        self.clock = self.clock.checked_add(u64::from(delta)).ok_or(9)?;
        match action {
            ENTRY | ENTRY_ARGS => self.enter(id),
            TAIL_EXIT => self.leave_tail(id),
            _ => self.leave(id),
        }
    }

    /// "Entry and Entry_Args open a call at the clock's new reading."
    fn enter(&mut self, id: u32) -> Result<(), u8> {
        if self.stack.len() == DEEPEST {
            return Err(11);
        }
        let row = match self.row_of.get(&id) {
            Some(row) => *row,
            None => self.first_entry(id)?,
        };
        self.rows[row].entered += 1;
        let opened = self.clock;
        self.stack.push(Call { id, row, opened });
        Ok(())
    }

    /// A new row for this id.
    fn first_entry(&mut self, id: u32) -> Result<usize, u8> {
        if self.rows.len() == ROWS {
            return Err(12);
        }
        let row = self.rows.len();
        self.rows.push(Row {
            id,
            ..Row::default()
        });
        self.row_of.insert(id, row);
        Ok(row)
    }

    /// Exit closes "the nearest open call of that id; calls above it are
    /// abandoned."
    fn leave(&mut self, id: u32) -> Result<(), u8> {
        let at = self.nearest(id)?;
        for above in self.stack.drain(at + 1..) {
            self.rows[above.row].abandoned += 1;
        }
        self.close_top()
    }

    /// "On Tail_Exit, close every open call from the top down to and including
    /// the nearest one of that id, all at this clock".
    fn leave_tail(&mut self, id: u32) -> Result<(), u8> {
        let at = self.nearest(id)?;
        while self.stack.len() > at {
            self.close_top()?;
        }
        Ok(())
    }

    /// The index of the nearest open call of an id.
    fn nearest(&self, id: u32) -> Result<usize, u8> {
        self.stack.iter().rposition(|call| call.id == id).ok_or(10)
    }

    /// Closes the call at the top, if there is one, at the clock's reading.
    fn close_top(&mut self) -> Result<(), u8> {
        let Some(call) = self.stack.pop() else {
            return Ok(());
        };
        let row = &mut self.rows[call.row];
        if self.clock < call.opened {
            row.backward += 1;
        } else {
            let ticks = self.clock - call.opened;
            row.ticks = row.ticks.checked_add(ticks).ok_or(13)?;
        }
        row.closed += 1;
        Ok(())
    }

    /// "The first 6,144 numbers are written: rows, then zeros."
    pub(crate) fn write(&self, written: &mut [u64]) {
        let (rows, zeros) = written.split_at_mut(self.rows.len() * ROW);
        for (numbers, row) in rows.chunks_mut(ROW).zip(&self.rows) {
            numbers.copy_from_slice(&row.numbers());
        }
        zeros.fill(0);
    }

    pub(crate) fn report(&self) -> Answer {
        Answer::Report {
            rows: self.rows.len() as u64,
            buffers: self.buffers,
            records: self.records,
            open: self.stack.len() as u64,
        }
    }
}

/// The lines that the program prints for these bytes of standard input. Paper
/// 01, "Sample logs". The program itself takes little-endian logs alone.
pub fn lines(log: &[u8], order: Order) -> String {
    if log.len() > INPUT {
        return "too long\n".to_string();
    }
    let mut table = vec![0; TABLE];
    let answer = replay(log, order, &mut table);
    lines_of(&answer, &table)
}

/// The lines for an answer and the table that was written with it.
pub fn lines_of(answer: &Answer, table: &[u64]) -> String {
    match answer {
        Answer::Refused { number, place } => format!("refused {number} at {place}\n"),
        Answer::Report {
            rows,
            buffers,
            records,
            open,
        } => {
            let mut text = format!("rows {rows} buffers {buffers} records {records} open {open}\n");
            for row in table.chunks(ROW).take(*rows as usize) {
                let numbers: Vec<String> = row.iter().map(u64::to_string).collect();
                text += &numbers.join(" ");
                text.push('\n');
            }
            text
        }
    }
}
