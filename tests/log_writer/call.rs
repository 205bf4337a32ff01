//! A call of a log writer, with what both sides answer to it.

use harness::proved;
use harness::record::Fields;
use harness::state::{At, Opening, Start};
use second::log_writer::{self, State};
use second::record::Record;

#[derive(Debug, Clone)]
pub enum Call {
    Start(Start),
    Open(Opening),
    Add { fields: Fields, event: Vec<u8> },
    Close,
}

impl Call {
    /// The second program's answer, and its writing. A start takes no state.
    pub fn second(&self, at: &At, out: &mut [u8]) -> Result<State, u8> {
        let state = at.state();
        match self {
            Call::Start(start) => log_writer::start(&start.second(), out),
            Call::Open(opening) => log_writer::open(state, &opening.second(), out),
            Call::Add { fields, event } => log_writer::add(state, &fields.record(), event, out),
            Call::Close => log_writer::close(state, out),
        }
    }

    /// One number of the proved answer, and the proved writing.
    pub fn proved(&self, at: &At, out: &mut [u8], which: u64) -> u64 {
        match self {
            Call::Start(start) => proved::start(start, out, which),
            Call::Open(opening) => proved::open(at, opening, out, which),
            Call::Add { fields, event } => proved::add(at, fields, event, out, which),
            Call::Close => proved::close(at, out, which),
        }
    }

    /// The records that the call writes when it is accepted, with their events.
    pub fn records(&self, thread: u16) -> Vec<(Record, Vec<u8>)> {
        let plain = |record| (record, Vec::new());
        match self {
            Call::Start(_) => Vec::new(),
            Call::Open(opening) => opening.second().records(thread).map(plain).to_vec(),
            Call::Close => vec![plain(Record::EndOfBuffer)],
            Call::Add { fields, event } => match fields.record() {
                record @ Record::CustomEvent { .. } => vec![(record, event.clone())],
                record => vec![plain(record)],
            },
        }
    }

    /// The call without an event's bytes.
    pub fn name(&self) -> String {
        match self {
            Call::Add { fields, event } => format!("Add {fields:?}, {} bytes", event.len()),
            other => format!("{other:?}"),
        }
    }
}
