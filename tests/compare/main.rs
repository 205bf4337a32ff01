//! Compares the proved comparison of two times with the second one, on
//! generated pairs of sides, each as it is and exchanged.
//!
//! `compare [PAIRS] [--seed SEED]`

#![forbid(unsafe_code)]

mod counts;
mod factors;
mod pairs;
mod products;
mod sides;

use counts::Counts;
use harness::proved;
use harness::suite::{self, Words};
use pairs::{Kind, Pair};
use std::process::ExitCode;

/// Pairs where no number is given.
const PAIRS: u64 = 1_200_000;

/// What the exchanged pair must be answered.
fn mirrored(answer: u32) -> u32 {
    match answer {
        0 => 2,
        2 => 0,
        other => other,
    }
}

/// The answer of both sides; the text tells of a difference.
fn answer(pair: &Pair) -> Result<u32, String> {
    let proved = proved::compare(&pair.a, &pair.b);
    let second = second::compare::compare(pair.a, pair.b);
    match proved == second {
        true => Ok(proved),
        false => Err(format!("{proved}, expected {second}\n  {pair:?}")),
    }
}

/// One pair as it is and exchanged.
fn compare(pair: &Pair) -> Result<u32, String> {
    let straight = answer(pair)?;
    let exchanged = answer(&pair.exchanged())?;
    match exchanged == mirrored(straight) {
        true => Ok(straight),
        false => Err(format!("{straight}, but exchanged {exchanged}\n  {pair:?}")),
    }
}

fn run(words: Words) -> Result<String, String> {
    let (pairs, seed) = words.cases(PAIRS)?;
    let mut counts = Counts::new();
    for index in 0..pairs {
        let (kind, pair) = (Kind::at(index), pairs::pair(index, seed));
        let answer = compare(&pair).map_err(|text| {
            format!("difference: --seed {seed:#018x}, pair {index}, kind {kind:?}: {text}")
        })?;
        counts.count(kind, &pair, answer);
    }
    suite::seen(&counts.tables())?;
    let pairs = counts.answers.sum();
    Ok(format!("compare: {pairs} pairs, no difference"))
}

fn main() -> ExitCode {
    suite::main(run)
}
