//! Compares the proved scrubber with the second one, and runs demand 3 with the
//! proved replay and scrubber: what differs in hidden bytes alone has the same
//! replay and the same scrubbed copy. Both on generated logs, on some of about
//! 16 MiB and on the samples, of both byte orders. What is turned into the other
//! order is scrubbed at the same places.
//!
//! `scrub [LOGS] [--seed SEED]`

#![forbid(unsafe_code)]

mod checks;
mod counts;
mod overwriting;
mod scrubbing;

use checks::Checks;
use harness::suite::{self, Words};
use logs::calls;
use logs::inputs::{self, Input, Kind};
use logs::random::Random;
use second::order::Order;
use std::process::ExitCode;

/// Logs where no number is given.
const LOGS: u64 = 100_000;
/// Times that each sample is taken.
const SAMPLED: u64 = 20;
/// Last digits of the seeds of logs of about 16 MiB: well-formed ones of one
/// buffer, of 32, and of buffers of 4,096 and of 80 bytes; with 2 one that is a
/// byte too long; with 8 one whose last buffer names another thread.
const HUGE: [u64; 8] = [0, 1, 2, 3, 4, 5, 6, 8];

/// Checks one log of this order; the text tells of a difference and of its case.
fn check(
    checks: &mut Checks,
    log: &[u8],
    order: Order,
    name: &str,
    seed: u64,
) -> Result<(), String> {
    let checked = checks.run(log, order, &mut Random::new(!seed));
    checked.map_err(|text| {
        let name = format!("{name}, {order:?}");
        suite::difference(&name, seed, log, &text)
    })
}

fn run(words: Words) -> Result<String, String> {
    let (logs, first) = words.cases(LOGS)?;
    let mut checks = Checks::new();
    for index in 0..logs {
        let input = Input::at(index, first);
        let (kind, order, seed) = (input.kind, input.order, input.seed);
        check(&mut checks, &input.log(), order, &kind.name(), seed)?;
        checks.counts.kinds.count(kind.index(), order as usize);
    }
    for digit in HUGE {
        let seed = first % (1 << 48) * 10 + digit;
        for order in Order::ALL {
            let log = calls::log(calls::Kind::Limit, seed, order);
            check(&mut checks, &log, order, "log of 16 MiB", seed)?;
        }
    }
    for sample in inputs::samples()? {
        for time in 0..SAMPLED {
            // In the order that is its own, and in the other.
            let order = Order::ALL[time as usize % 2];
            let seed = first.wrapping_add(time);
            check(&mut checks, &sample.log, order, &sample.name, seed)?;
            checks.counts.kinds.count(Kind::all().len(), order as usize);
        }
    }
    suite::seen(&checks.counts.tables())?;
    let [logs, pairs, refused] = checks.counts.sums();
    Ok(format!(
        "scrub: {logs} logs, {pairs} pairs of well-formed and {refused} of refused ones, \
         no difference"
    ))
}

fn main() -> ExitCode {
    suite::main(run)
}
