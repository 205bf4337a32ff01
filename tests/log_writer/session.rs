//! One sequence of calls on one output, from a start on; between them calls in
//! other states and with less of the output, which are taken back.

use crate::call::Call;
use crate::counts::Counts;
use crate::edges::Case;
use crate::making;
use crate::odd;
use crate::output::Output;
use crate::plan::{Kind, Plan};
use crate::reading;
use harness::state::At;
use logs::random::Random;
use second::log_writer::{Start, State};
use second::order::Order;
use second::record::Record;
use second::walk::Stage;

/// The most room that an odd state is taken to have.
const FAR: u64 = 4_096;

pub struct Session<'a> {
    pub random: &'a mut Random,
    counts: &'a mut Counts,
    order: Order,
    output: Output,
    start: Option<Start>,
    state: Option<State>,
    /// The records accepted up to the last close, and those after it.
    closed: Vec<(Record, Vec<u8>)>,
    opened: Vec<(Record, Vec<u8>)>,
    /// The end of the last closed buffer, or of the header.
    end: u64,
}

impl<'a> Session<'a> {
    pub fn new(
        random: &'a mut Random,
        counts: &'a mut Counts,
        order: Order,
        length: usize,
    ) -> Session<'a> {
        Session {
            output: Output::new(random, length),
            random,
            counts,
            order,
            start: None,
            state: None,
            closed: Vec::new(),
            opened: Vec::new(),
            end: 0,
        }
    }

    /// All calls of a sequence, and the reading of what they wrote.
    pub fn run(&mut self, plan: &Plan, kind: Kind) -> Result<(), String> {
        let begin = making::start(self.random, self.order, plan.size);
        self.call(&begin)?;
        for _ in 0..plan.calls {
            // Large outputs are few.
            if kind == Kind::Large || self.random.once_in(3) {
                self.odd_call()?;
            }
            let Some(state) = self.state else { continue };
            let call = making::call(self.random, kind, &state);
            let taken = self.call(&call)?;
            if taken && matches!(call, Call::Close) && kind != Kind::Large {
                self.read_at_times()?;
            }
            // A full output ends most sequences.
            let full = !taken && state.stage == Stage::Between && kind != Kind::Large;
            if full && matches!(call, Call::Open(_)) && !self.random.once_in(4) {
                break;
            }
        }
        self.read_back()
    }

    /// A call in the session's own state; whether it was accepted.
    pub fn call(&mut self, call: &Call) -> Result<bool, String> {
        let at = self.state.as_ref().map_or(At::default(), At::from);
        let length = self.output.len();
        let named = |text| format!("{text}\n  call {}\n  state {at:?}", call.name());
        let done = self
            .output
            .call(call, &at, length, self.random)
            .map_err(named)?;
        self.counts.call(&Case {
            order: self.order,
            call,
            at: &at,
            length,
            answer: &done.answer,
            last: self.opened.last().map(|(record, _)| record),
        });
        if let Ok(next) = done.answer {
            self.accepted(call, next);
        }
        Ok(done.answer.is_ok())
    }

    fn read_at_times(&mut self) -> Result<(), String> {
        match self.random.once_in(4) {
            true => self.read_back(),
            false => Ok(()),
        }
    }

    fn accepted(&mut self, call: &Call, next: State) {
        if let Call::Start(start) = call {
            self.start = Some(start.second());
        }
        self.opened.extend(call.records(next.thread));
        self.state = Some(next);
        if next.stage == Stage::Between {
            self.closed.append(&mut self.opened);
            self.end = next.place;
        }
    }

    /// A call in another state, with less of the output, or both.
    fn odd_call(&mut self) -> Result<(), String> {
        let own = self.output.len();
        let at = odd::at(self.random, self.state.as_ref(), own);
        let length = match self.random.below(3) {
            0 => odd::length(self.random, &at, own),
            _ => own,
        };
        // An end that lies far away calls for no event of that length.
        let near = State {
            end: at.end.min(at.place.saturating_add(FAR)),
            ..at.state()
        };
        let call = making::any(self.random, &near);
        let named = |text| {
            let name = call.name();
            format!("{text}\n  call {name}\n  with {length} bytes of output, {at:?}")
        };
        let done = self
            .output
            .call(&call, &at, length, self.random)
            .map_err(named)?;
        self.counts.odd_call(&call, &at, length, &done.answer);
        if let (Some(own), Ok(_)) = (&self.state, &done.answer) {
            self.counts.odd_order(own, &at);
        }
        self.output.undo(done);
        Ok(())
    }

    /// "After a close or right after the start the bytes so far are a
    /// well-formed log whose records are those accepted, in order."
    pub fn read_back(&mut self) -> Result<(), String> {
        let Some(start) = &self.start else {
            return Ok(());
        };
        let log = self.log();
        reading::by_second(log, start, &self.closed)?;
        reading::by_proved(log, start, &self.closed)?;
        let length = log.len();
        self.counts.read_back(self.order, length, &self.closed);
        Ok(())
    }

    /// The bytes of the closed buffers, behind the header.
    pub fn log(&self) -> &[u8] {
        self.output.log(self.end)
    }

    /// The records of the closed buffers with their events.
    pub fn records(&self) -> &[(Record, Vec<u8>)] {
        &self.closed
    }

    pub fn stage(&self) -> Option<Stage> {
        self.state.map(|state| state.stage)
    }
}
