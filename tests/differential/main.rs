//! Compares the proved header tests, record reader and walk with the second
//! ones, on generated logs and on the samples, and the record writers, in both
//! byte orders. A log that is turned into the other order must have the same
//! header and steps.
//!
//! `differential [INPUTS] [--seed SEED]`

#![forbid(unsafe_code)]

mod counts;
mod places;
mod reading;
mod writing;

use counts::Counts;
use harness::order;
use harness::suite::{self, Words};
use logs::generate::{self, Kind};
use logs::inputs::{halved, samples};
use logs::random::Random;
use logs::turn::turned;
use reading::Reading;
use second::order::Order;
use std::process::ExitCode;

/// Inputs where no number is given.
const INPUTS: u64 = 120_000;

/// Compares the readings of one log in this order; the text tells of a
/// difference.
fn compare(
    log: &[u8],
    order: Order,
    seed: u64,
    name: &str,
    counts: &mut Counts,
) -> Result<(), String> {
    let random = &mut Random::new(!seed);
    let mut reading = Reading {
        log,
        turned: &turned(log, order),
        order,
        named: [order, order.other()].map(|order| order::named(random, order)),
        random,
        counts,
    };
    let compared = reading.run();
    compared.map_err(|text| {
        let name = format!("{name}, {order:?}");
        suite::difference(&name, seed, log, &text)
    })
}

fn run(words: Words) -> Result<String, String> {
    let (inputs, seed) = words.cases(INPUTS)?;
    let mut counts = Counts::new();
    for index in 0..inputs {
        let (half, order) = halved(index);
        let (kind, seed) = (Kind::at(half), seed.wrapping_add(index));
        let log = generate::log(kind, seed, order);
        let name = format!("kind {kind:?}");
        compare(&log, order, seed, &name, &mut counts)?;
        counts.kinds.count(kind as usize, order as usize);
    }
    // In the order that is theirs, and in the other.
    for sample in samples()? {
        for order in Order::ALL {
            compare(&sample.log, order, seed, &sample.name, &mut counts)?;
            counts.kinds.count(Kind::ALL.len(), order as usize);
        }
    }
    writing::run(inputs, seed, &mut counts)?;
    suite::seen(&counts.tables())?;
    let inputs = counts.kinds.sum();
    Ok(format!("differential: {inputs} inputs, no difference"))
}

fn main() -> ExitCode {
    suite::main(run)
}
