//! One log through both sides: the header's tests, the walk, and the record
//! reader and single steps at places of all sorts; and the header's tests and
//! the walk of the same log in the other byte order.

use crate::counts::{Counts, HEADER, ODD_STEP, READER, WALK};
use crate::counts::{ANSWERS, EVENTS, OVER, TURNED, WALKED};
use crate::places::{self, Met};
use harness::answer;
use harness::order;
use harness::proved;
use harness::state::At;
use logs::random::Random;
use second::header::{self, Header};
use second::order::Order;
use second::reader;
use second::record::Record;
use second::walk::{self, Step};

/// Places of records at which the reader is tried, at most.
const RECORDS: usize = 10;
/// Places of events, besides those.
const TRIED_EVENTS: usize = 4;
/// Tries of each sort at odd places.
const TRIES: usize = 12;

pub struct Reading<'a> {
    pub log: &'a [u8],
    /// The same log in the other order.
    pub turned: &'a [u8],
    pub order: Order,
    /// The numbers that name the order, and the other one.
    pub named: [u32; 2],
    pub random: &'a mut Random,
    pub counts: &'a mut Counts,
}

impl Reading<'_> {
    /// Every comparison for this log; the text tells of a difference.
    pub fn run(&mut self) -> Result<(), String> {
        let met = match self.header()? {
            Ok(header) => self.walk(&header)?,
            Err(_) => Vec::new(),
        };
        self.at_records(&met)?;
        self.at_fixed_places()?;
        for _ in 0..TRIES {
            let length = self.log.len() as u64;
            let near = places::near(self.random, &met, length);
            let end = places::odd(self.random, near.behind, length);
            let place = places::odd(self.random, near.at.place, length);
            self.record(end, place)?;
            self.odd_step(&near)?;
        }
        Ok(())
    }

    /// All numbers of one answer.
    fn same(
        &mut self,
        name: impl FnOnce() -> String,
        list: &[u64],
        ask: impl Fn(u64) -> u64,
    ) -> Result<(), String> {
        self.counts.met(ANSWERS, self.order, 1);
        answer::same(list, answer::all(list), ask).map_err(|text| format!("{}: {text}", name()))
    }

    /// The header's tests, which the log in the other order passes or fails
    /// alike.
    fn header(&mut self) -> Result<Result<Header, u8>, String> {
        let ([own, other], log) = (self.named, self.log);
        let answer = header::check(log, self.order);
        let list = answer::header(&answer);
        let name = || "header".to_string();
        self.same(name, &list, |which| proved::header(log, own, which))?;
        let (name, log) = (|| "header, turned".to_string(), self.turned);
        self.same(name, &list, |which| proved::header(log, other, which))?;
        self.counts.answered(HEADER, self.order, list[0] as usize);
        Ok(answer)
    }

    /// The walk from the start, step by step.
    fn walk(&mut self, header: &Header) -> Result<Vec<Met>, String> {
        let mut met = Vec::new();
        let mut at = At::from(&walk::start(header, self.order));
        loop {
            let step = self.step(&at)?;
            self.turned_step(&at, &step)?;
            let Step::Found { record, next } = step else {
                self.counts.answered(WALK, self.order, refusal(&step));
                return Ok(met);
            };
            self.counts.met(WALKED, self.order, 1);
            met.push(Met {
                at,
                end: next.end,
                behind: at.place + record.size() + record.event_size(),
            });
            at = At::from(&next);
        }
    }

    fn step(&mut self, at: &At) -> Result<Step, String> {
        let log = self.log;
        let step = walk::next(log, at.position());
        let name = || format!("next({at:?})");
        let list = answer::step(&step);
        self.same(name, &list, |which| proved::next(log, at, which))?;
        Ok(step)
    }

    /// The step from the same position of the log in the other order: the same
    /// but for the order, and for an argument, whose bytes are hidden and so
    /// the same, and are read in the other order.
    fn turned_step(&mut self, at: &At, step: &Step) -> Result<(), String> {
        let at = At {
            order: self.named[1],
            ..*at
        };
        let mut step = *step;
        if let Step::Found { record, next } = &mut step {
            next.order = self.order.other();
            if let Record::CallArgument { argument } = record {
                *argument = argument.swap_bytes();
            }
        }
        let (list, log) = (answer::step(&step), self.turned);
        let name = || format!("next({at:?}), turned");
        self.counts.met(TURNED, self.order, 1);
        self.same(name, &list, |which| proved::next(log, &at, which))
    }

    /// A step from a position near to this record.
    fn odd_step(&mut self, near: &Met) -> Result<(), String> {
        let at = places::position(self.random, near, self.log, self.order);
        let order = order::of(at.order);
        match self.step(&at)? {
            Step::Over => self.counts.met(OVER, order, 1),
            step => self.counts.answered(ODD_STEP, order, refusal(&step)),
        }
        Ok(())
    }

    /// The reader and the event part at one place.
    fn record(&mut self, end: u64, place: u64) -> Result<(), String> {
        let ([own, _], log) = (self.named, self.log);
        let list = answer::read(&reader::read(log, self.order, end, place));
        let name = || format!("read(end {end}, place {place})");
        self.same(name, &list, |which| {
            proved::read(log, own, end, place, which)
        })?;
        self.counts.answered(READER, self.order, list[0] as usize);
        self.event(end, place)
    }

    /// The event part, which is empty at most places.
    fn event(&mut self, end: u64, place: u64) -> Result<(), String> {
        let ([own, _], log) = (self.named, self.log);
        let event = reader::event(log, self.order, end, place);
        self.counts.met(ANSWERS, self.order, 1);
        let some = u64::from(!event.is_empty());
        self.counts.met(EVENTS, self.order, some);
        answer::same_event(event, |which| proved::event(log, own, end, place, which))
            .map_err(|text| format!("event(end {end}, place {place}): {text}"))
    }

    /// The reader at records met: with their buffer's end, with an end that
    /// they or their events just reach, and with one that they just miss.
    fn at_records(&mut self, met: &[Met]) -> Result<(), String> {
        let events = met.iter().filter(|one| one.behind > one.at.place + 16);
        let mut tried: Vec<Met> = events.take(TRIED_EVENTS).copied().collect();
        if met.len() <= RECORDS {
            tried.extend(met);
        } else {
            tried.extend((0..RECORDS).map(|_| met[self.random.index(met.len())]));
        }
        for one in tried {
            let place = one.at.place;
            self.record(one.end, place)?;
            self.record(one.behind, place)?;
            self.record(one.behind - 1, place)?;
            self.record(place, place)?;
            self.record(place + 1, place)?;
            self.record(one.end, one.end - 1)?;
            self.record(one.end, one.end)?;
        }
        Ok(())
    }

    /// The reader at the edges of the log and of the numbers: each edge as an
    /// end, with two of them as places.
    fn at_fixed_places(&mut self) -> Result<(), String> {
        let length = self.log.len() as u64;
        let edges = [
            0,
            header::SIZE as u64,
            length.saturating_sub(1),
            length,
            length + 1,
            u64::MAX - 15,
            u64::MAX,
        ];
        for end in edges {
            for _ in 0..2 {
                let place = self.random.one_of(&edges);
                self.record(end, place)?;
            }
        }
        Ok(())
    }
}

/// The number of a step's refusal, or 0.
fn refusal(step: &Step) -> usize {
    match step {
        Step::Refused { number, .. } => usize::from(*number),
        _ => 0,
    }
}
