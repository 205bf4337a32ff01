//! Compares the proved replay with the second one: the answers, and the lent
//! tables number by number, on generated logs and on the samples of both byte
//! orders; and what the program prints, where one is named. A log that is turned
//! into the other order must have the same answer and the same table.
//!
//! `replay [LOGS] [--seed SEED] [--program PATH]`

#![forbid(unsafe_code)]

mod counts;
mod program;

use counts::Counts;
use harness::order;
use harness::replaying::{self, Expected, Lent};
use harness::suite::{self, Words};
use logs::inputs::{self, Input, Kind};
use logs::random::Random;
use logs::turn::turned;
use second::order::Order;
use std::path::Path;
use std::process::ExitCode;

/// Logs where no number is given.
const LOGS: u64 = 220_000;
/// One in this many tables is too short.
const SHORT: u64 = 20;

/// A run of comparisons.
struct Run {
    lent: Lent,
    counts: Counts,
}

impl Run {
    /// Compares one log of this order; the text tells of a difference.
    fn compare(&mut self, log: &[u8], order: Order, seed: u64, name: &str) -> Result<(), String> {
        let random = &mut Random::new(!seed);
        let short = random.once_in(SHORT);
        let length = replaying::length(random, short);
        let named = |text| {
            let text = format!("table of {length}: {text}");
            suite::difference(name, seed, log, &text)
        };
        let expected = Expected::of(log, order, length);
        let whole = random.once_in(4);
        let number = order::named(random, order);
        let compared = self.lent.compare(log, number, length, whole, &expected);
        compared.map_err(named)?;
        self.counts.answer(order, &expected.answer, length, whole);
        if random.once_in(2) {
            let turned = self.turned(log, order, random, length, &expected);
            turned.map_err(|text| named(format!("turned: {text}")))?;
            self.counts.turned(order);
        }
        Ok(())
    }

    /// The log in the other order, which must be answered alike by both.
    fn turned(
        &mut self,
        log: &[u8],
        order: Order,
        random: &mut Random,
        length: usize,
        expected: &Expected,
    ) -> Result<(), String> {
        let (other, order) = (turned(log, order), order.other());
        if Expected::of(&other, order, length) != *expected {
            return Err("second program: another answer or table".to_string());
        }
        let number = order::named(random, order);
        self.lent.compare(&other, number, length, false, expected)
    }
}

fn run(mut words: Words) -> Result<String, String> {
    let program = words.behind("--program")?;
    let (logs, seed) = words.cases(LOGS)?;
    let mut run = Run {
        lent: Lent::new(1),
        counts: Counts::new(),
    };
    for index in 0..logs {
        let input = Input::at(index, seed);
        let (kind, order) = (input.kind, input.order);
        run.compare(&input.log(), order, input.seed, &input.name())?;
        run.counts.kinds.count(kind.index(), order as usize);
    }
    // In the order that is theirs, and in the other.
    for sample in inputs::samples()? {
        for order in Order::ALL {
            let name = format!("{}, {order:?}", sample.name);
            run.compare(&sample.log, order, seed, &name)?;
            run.counts.kinds.count(Kind::all().len(), order as usize);
        }
    }
    suite::seen(&run.counts.tables())?;
    if let Some(path) = program {
        let runs = program::run(Path::new(&path))?;
        println!("program: {runs} runs, no difference\n");
    }
    let logs = run.counts.kinds.sum();
    Ok(format!("replay: {logs} logs, no difference"))
}

fn main() -> ExitCode {
    suite::main(run)
}
