//! Measuring programs against each other, in rounds.

use crate::{Fallible, SIZES};
use std::time::{Duration, Instant};

const ROUNDS: usize = 11;

/// What one run took.
#[derive(Debug, Clone, Copy)]
pub struct Cost {
    pub seconds: f64,
    /// The peak of resident memory in MiB, of a process.
    pub peak: Option<f64>,
}

/// One of the programs that do a job on the same input.
pub struct Program<'a> {
    pub name: &'static str,
    run: Box<dyn FnMut() -> Fallible<Cost> + 'a>,
}

impl<'a> Program<'a> {
    pub fn new(name: &'static str, run: impl FnMut() -> Fallible<Cost> + 'a) -> Program<'a> {
        let run = Box::new(run);
        Program { name, run }
    }
}

/// An input of a job, with the programs that do it; the first is Towercloak.
pub struct Input<'a> {
    pub bytes: usize,
    pub programs: Vec<Program<'a>>,
}

/// The time that this takes.
pub fn clock(run: impl FnOnce()) -> Duration {
    let start = Instant::now();
    run();
    start.elapsed()
}

/// The mean cost of so many passes in memory.
pub fn mean(passes: usize, mut pass: impl FnMut() -> Duration) -> Cost {
    let total: Duration = (0..passes).map(|_| pass()).sum();
    Cost {
        seconds: total.as_secs_f64() / passes as f64,
        peak: None,
    }
}

/// Passes over an input of so many MiB that go over as much as one over the
/// largest.
pub fn passes(mib: usize) -> usize {
    SIZES[SIZES.len() - 1] / mib
}

/// For each input the median cost of each program. The programs take turns at
/// going first.
pub fn medians(inputs: &mut [Input]) -> Fallible<Vec<Vec<Cost>>> {
    let empty = |input: &Input| vec![Vec::new(); input.programs.len()];
    let mut costs: Vec<Vec<Vec<Cost>>> = inputs.iter().map(empty).collect();
    for round in 0..ROUNDS {
        for (input, costs) in inputs.iter_mut().zip(&mut costs) {
            let mut order: Vec<usize> = (0..costs.len()).collect();
            if round % 2 == 1 {
                order.reverse();
            }
            for at in order {
                costs[at].push((input.programs[at].run)()?);
            }
        }
    }
    let each = |costs: Vec<Vec<Cost>>| costs.iter().map(|costs| median(costs)).collect();
    Ok(costs.into_iter().map(each).collect())
}

fn median(costs: &[Cost]) -> Cost {
    let middle = |mut figures: Vec<f64>| {
        figures.sort_by(f64::total_cmp);
        figures.get(figures.len() / 2).copied()
    };
    let seconds = costs.iter().map(|cost| cost.seconds).collect();
    Cost {
        seconds: middle(seconds).expect("a round at least"),
        peak: middle(costs.iter().filter_map(|cost| cost.peak).collect()),
    }
}
