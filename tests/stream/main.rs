//! Feeds logs in reads to the proved stream and to the second program's, and
//! compares after every call the answers and the whole tables, with each other
//! and with what the second program's replay says of the whole log: generated logs
//! and the samples, of both byte orders, cut in several ways, each sample cut in
//! two at every byte, and longer logs than can be replayed whole, up to 2^64 bytes.
//! Then states that are damaged, number by number, and their rows.
//!
//! `stream [LOGS] [--seed SEED]`

#![forbid(unsafe_code)]

mod counts;
mod cuts;
mod damage;
mod driver;
mod far;
mod judge;
mod proved;
mod streaming;
mod times;
mod whole;

use counts::Counts;
use cuts::Way;
use damage::Damage;
use driver::{Call, Driver};
use far::Far;
use harness::suite::{self, Words};
use logs::calls;
use logs::inputs::{self, Input, Kind};
use logs::random::Random;
use proved::Proved;
use second::header::LONGEST;
use second::order::Order;
use second::stream::Stream;
use std::process::ExitCode;
use streaming::Streaming;
use times::Times;
use whole::Whole;

/// Logs where no number is given.
const LOGS: u64 = 24_000;
/// Of one log in this many another is made that is about 2^64 bytes long.
const FAR: u64 = 4;
/// Of one in this many the states are damaged.
const DAMAGED: u64 = 40;

/// Those that are compared, at the start of a log of this order.
fn all<'a>(times: &'a Times, order: Order) -> [Box<dyn Streaming + 'a>; 3] {
    [
        Box::new(Proved::start(order)),
        Box::new(Stream::start(order)),
        Box::new(Whole::start(times)),
    ]
}

/// A run of comparisons.
struct Run {
    driver: Driver,
    damage: Damage,
    counts: Counts,
}

impl Run {
    /// Compares one log of this order, cut in one way; the text tells of a
    /// difference.
    fn compare(&mut self, log: &[u8], order: Order, seed: u64, name: &str) -> Result<(), String> {
        let random = &mut Random::new(!seed);
        let times = Times::of(log, order);
        let way = Way::of(random, log.len());
        let reads = way.reads(random, log);
        let streams = all(&times, order);
        let calls = reads.iter().map(|read| Call::Feed(read));
        let told = self.driver.drive(random, streams, calls);
        let told = told.map_err(|text| {
            let text = format!("{way:?}, {} reads: {text}", reads.len());
            suite::difference(name, seed, log, &text)
        })?;
        self.counts.log(order, log.len(), way, times.end(), &told);
        Ok(())
    }

    /// Compares one about 2^64 bytes long that is made of this log, where one can
    /// be.
    fn far(&mut self, input: &Input) -> Result<(), String> {
        let random = &mut Random::new(!input.seed);
        let Some(far) = Far::of(random, input) else {
            return Ok(());
        };
        let calls = far.calls(random);
        let streams = all(&far.times, far.order);
        let told = self.driver.drive(random, streams, calls);
        let told = told.map_err(|text| {
            let name = format!("{}, far", input.name());
            suite::difference(&name, input.seed, &input.log(), &text)
        })?;
        self.counts.far(far.order, &told);
        Ok(())
    }

    /// Compares one sample in this order, cut in two at every byte.
    fn every_cut(&mut self, log: &[u8], order: Order, name: &str) -> Result<(), String> {
        let times = Times::of(log, order);
        for cut in 0..=log.len() {
            let random = &mut Random::new(cut as u64);
            let calls = [&log[..cut], &log[cut..]].map(Call::Feed);
            let told = self.driver.drive(random, all(&times, order), calls);
            let told = told.map_err(|text| {
                let text = format!("cut at {cut}: {text}");
                suite::difference(name, 0, log, &text)
            })?;
            self.counts.cut(order, times.end(), &told);
        }
        Ok(())
    }
}

fn run(words: Words) -> Result<String, String> {
    let (logs, seed) = words.cases(LOGS)?;
    let mut run = Run {
        driver: Driver::new(),
        damage: Damage::new(),
        counts: Counts::new(),
    };
    for index in 0..logs {
        let input = Input::at(index, seed);
        let (kind, order) = (input.kind, input.order);
        run.compare(&input.log(), order, input.seed, &input.name())?;
        run.counts.kinds.count(kind.index(), order as usize);
        // Two neighbours are of both orders.
        if (index / 2).is_multiple_of(FAR) && !kind.is_huge() {
            run.far(&input)?;
        }
        if (index / 2).is_multiple_of(DAMAGED) && !kind.is_huge() {
            let random = &mut Random::new(!input.seed);
            let text =
                |text: String| suite::difference(&input.name(), input.seed, &input.log(), &text);
            run.damage.of(random, &input).map_err(text)?;
        }
    }
    for order in Order::ALL {
        let log = calls::of_length(LONGEST + 4096, seed, order);
        run.compare(&log, order, seed, &format!("too long, {order:?}"))?;
    }
    // In the order that is theirs at every cut, and in the other.
    for sample in inputs::samples()? {
        let (own, other) = (sample.order, sample.order.other());
        run.every_cut(&sample.log, own, &sample.name)?;
        let name = format!("{}, {other:?}", sample.name);
        run.compare(&sample.log, other, seed, &name)?;
        for order in Order::ALL {
            run.counts.kinds.count(Kind::all().len(), order as usize);
        }
    }
    suite::seen(&run.counts.tables(&run.driver.calls))?;
    suite::seen(&[&run.damage.calls])?;
    let (logs, calls) = (run.counts.kinds.sum(), run.driver.calls.sum());
    Ok(format!("stream: {logs} logs, {calls} calls, no difference"))
}

fn main() -> ExitCode {
    suite::main(run)
}
