//! Compares the proved log writer with the second one, on sequences of calls in
//! the states that they return and in others, and reads back what was written,
//! in both byte orders.
//!
//! With `--llvm`, some little-endian logs are then read by LLVM's `llvm-xray` too.
//!
//! `log_writer [SEQUENCES] [--seed SEED] [--llvm]`

#![forbid(unsafe_code)]

mod call;
mod counts;
mod edges;
mod llvm;
mod making;
mod odd;
mod output;
mod plan;
mod reading;
mod session;

use counts::Counts;
use harness::suite::{self, Words};
use logs::inputs::halved;
use logs::random::Random;
use plan::Kind;
use session::Session;
use std::process::ExitCode;

/// Sequences where no number is given.
const SEQUENCES: u64 = 200_000;

/// One sequence of calls; the text tells of a difference.
fn sequence(index: u64, seed: u64, counts: &mut Counts) -> Result<(), String> {
    let random = &mut Random::new(seed.wrapping_add(index));
    let (half, order) = halved(index);
    let kind = Kind::at(half);
    let plan = plan::plan(random, kind, half);
    counts.kinds.count(kind as usize, order as usize);
    counts.output(order, plan.length);
    let mut session = Session::new(random, counts, order, plan.length);
    session.run(&plan, kind).map_err(|text| {
        let (length, size) = (plan.length, plan.size);
        format!(
            "difference: --seed {seed:#018x}, sequence {index}, {kind:?}, {order:?}, \
             output of {length} bytes, buffer_size {size}\n  {text}"
        )
    })
}

fn run(mut words: Words) -> Result<String, String> {
    let llvm = words.flag("--llvm");
    let (sequences, seed) = words.cases(SEQUENCES)?;
    let mut counts = Counts::new();
    for index in 0..sequences {
        sequence(index, seed, &mut counts)?;
    }
    suite::seen(&counts.tables())?;
    if llvm {
        println!("{}\n", llvm::run(seed)?);
    }
    let (sequences, calls) = (counts.sequences(), counts.calls());
    Ok(format!(
        "log writer: {sequences} sequences, {calls} calls, no difference"
    ))
}

fn main() -> ExitCode {
    suite::main(run)
}
