//! Makes the same calls of several streams, and compares what they answer and write.

use crate::streaming::Streaming;
use harness::counts::Table;
use harness::replaying;
use logs::random::Random;
use second::replay;
use second::stream::Answer;

/// Before one in this many calls the same one is made with a table that is too
/// short.
const SHORT: u64 = 12;
/// Calls behind the end or a refusal.
const AFTER: u64 = 2;
/// A read of these, which start no log.
const BYTES: [u8; 40] = [0xFF; 40];

/// What is counted of the calls.
const CALLS: [&str; 6] = [
    "reads",
    "empty reads",
    "ends",
    "with short tables",
    "after a refusal",
    "after the end",
];

#[derive(Debug, Clone, Copy)]
pub enum Call<'a> {
    Feed(&'a [u8]),
    End,
    /// No call: so many bytes that are only counted.
    Pass(u64),
}

/// How a stream ended.
pub struct Told {
    pub answer: replay::Answer,
    /// It was told of the end, and not before.
    pub at_end: bool,
}

pub struct Driver {
    /// What the tables hold before the first call: no zeros.
    dirt: Vec<u64>,
    /// A table for each.
    lent: [Vec<u64>; STREAMS],
    pub calls: Table,
}

/// The last is the one that the others are to be like.
const STREAMS: usize = 3;

type Streams<'a> = [Box<dyn Streaming + 'a>; STREAMS];

impl Driver {
    pub fn new() -> Driver {
        let random = &mut Random::new(1);
        let numbers = replaying::LONGEST;
        let dirt: Vec<u64> = (0..numbers).map(|_| random.number() | 1).collect();
        Driver {
            lent: std::array::from_fn(|_| dirt.clone()),
            dirt,
            calls: Table::counting("calls", "calls", CALLS),
        }
    }

    /// Feeds all these reads and tells them the end, up to a refusal, and then
    /// goes on for some calls.
    pub fn drive<'a>(
        &mut self,
        random: &mut Random,
        mut streams: Streams,
        calls: impl IntoIterator<Item = Call<'a>>,
    ) -> Result<Told, String> {
        self.soil();
        for (index, call) in calls.into_iter().chain([Call::End]).enumerate() {
            let named = |text| format!("call {index}, {call:.60?}: {text}");
            let answer = self.call(random, &mut streams, call).map_err(named)?;
            if let Answer::Told(answer) = answer {
                self.go_on(random, &mut streams, answer)?;
                let at_end = matches!(call, Call::End);
                return Ok(Told { answer, at_end });
            }
        }
        Err("more behind the end".to_string())
    }

    /// A call, at times with a short table first, which must be 14.
    fn call(
        &mut self,
        random: &mut Random,
        streams: &mut Streams,
        call: Call,
    ) -> Result<Answer, String> {
        if let Call::Pass(bytes) = call {
            streams.iter_mut().for_each(|stream| stream.pass(bytes));
            return Ok(Answer::More);
        }
        if random.once_in(SHORT) {
            let length = replaying::length(random, true);
            let answer = self.same(streams, call, length)?;
            if answer != fourteen() {
                return Err(format!("table of {length}: {answer:?}"));
            }
            self.calls.count(3, 0);
        }
        let row = match call {
            Call::Feed([]) => 1,
            Call::Feed(_) => 0,
            _ => 2,
        };
        self.calls.count(row, 0);
        self.same(streams, call, replaying::length(random, false))
    }

    /// Calls that must all be answered so, whatever they are lent, and write
    /// nothing.
    fn go_on(
        &mut self,
        random: &mut Random,
        streams: &mut Streams,
        answer: replay::Answer,
    ) -> Result<(), String> {
        self.soil();
        for _ in 0..AFTER {
            let short = random.once_in(3);
            let length = replaying::length(random, short);
            let call = match random.below(3) {
                0 => Call::End,
                1 => Call::Feed(&[]),
                _ => Call::Feed(&BYTES),
            };
            let again = self.same(streams, call, length)?;
            if again != Answer::Told(answer) || self.lent[0] != self.dirt {
                return Err(format!(
                    "behind {answer:?}: {again:?}, or a table is written"
                ));
            }
            let row = match answer {
                replay::Answer::Refused { .. } => 4,
                replay::Answer::Report { .. } => 5,
            };
            self.calls.count(row, 0);
        }
        Ok(())
    }

    /// One call of each, with a table of this length.
    fn same(&mut self, streams: &mut Streams, call: Call, length: usize) -> Result<Answer, String> {
        let answers: [Answer; STREAMS] = std::array::from_fn(|index| {
            let table = &mut self.lent[index][..length];
            match call {
                Call::Feed(read) => streams[index].feed(read, table),
                _ => streams[index].end(table),
            }
        });
        let expected = answers[STREAMS - 1];
        for (index, answer) in answers.iter().enumerate() {
            if *answer != expected {
                return Err(format!("{index}: {answer:?}, expected {expected:?}"));
            }
            if self.lent[index] != self.lent[STREAMS - 1] {
                let text = self.difference(index);
                return Err(format!("{index}: {answer:?}, but {text}"));
            }
        }
        Ok(expected)
    }

    /// The first number that differs.
    fn difference(&self, index: usize) -> String {
        let (one, other) = (&self.lent[index], &self.lent[STREAMS - 1]);
        let differs = |place: &usize| one[*place] != other[*place];
        let place = (0..one.len()).find(differs).unwrap_or(0);
        let (one, other) = (one[place], other[place]);
        format!("number {place} of the table is {one}, expected {other}")
    }

    fn soil(&mut self) {
        for table in &mut self.lent {
            table.copy_from_slice(&self.dirt);
        }
    }
}

fn fourteen() -> Answer {
    let (number, place) = (14, 0);
    Answer::Told(replay::Answer::Refused { number, place })
}
