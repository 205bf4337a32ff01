//! Measures the walk of transition tables, by their rows: the proved one and,
//! once for each table, the second program's, which tests each row with each.
//! All rows are for one edge, in any order, so that every two of them could
//! clash.

use bench::measure::{clock, mean, medians, Input, Program};
use bench::process::end;
use bench::table::{SECOND, TOWERCLOAK};
use bench::Fallible;
use harness::proved;
use logs::random::Random;
use std::hint::black_box;
use std::process::ExitCode;

const ROWS: [usize; 4] = [5_000, 10_000, 20_000, 40_000];
/// Characters of a code, enough for as many rows.
const CODE: u64 = 16;
/// Steps of the longer walk.
const STEPS: usize = 40_000;

/// A table of so many rows, and the bits of a walk of `STEPS` edges.
struct Made {
    table: Vec<u64>,
    bits: Vec<u8>,
}

/// The code of a number, as characters.
fn code(number: u64) -> impl Iterator<Item = u8> {
    (0..CODE)
        .rev()
        .map(move |bit| b'0' + (number >> bit & 1) as u8)
}

fn made(rows: usize) -> Made {
    let random = &mut Random::new(rows as u64);
    let mut codes: Vec<u64> = (0..1 << CODE).collect();
    for place in (1..codes.len()).rev() {
        codes.swap(place, random.index(place + 1));
    }
    codes.truncate(rows);
    let row = |number: &u64| {
        let code: Vec<u64> = code(*number).map(u64::from).collect();
        [&[1, CODE], &code[..], &[1, 1]].concat()
    };
    Made {
        table: codes.iter().flat_map(row).collect(),
        bits: (0..STEPS)
            .flat_map(|_| code(random.one_of(&codes)))
            .collect(),
    }
}

/// So many steps must be accepted by a walk.
fn walk(made: &Made, steps: usize, list: &mut [u64]) -> Fallible<()> {
    let bits = &made.bits[..steps * CODE as usize];
    match proved::walk(&made.table, 1, bits, steps as u64, list) {
        0 => Ok(()),
        number => Err(format!("refused {number}")),
    }
}

fn second(made: &Made, list: &mut [u64]) -> Fallible<()> {
    let bits = &made.bits[..CODE as usize];
    let answer = second::transitions::walk(&made.table, 1, bits, 1, list);
    answer.map_err(|number| format!("refused {number}"))
}

/// The programs of one table: a walk of a step, and one of `STEPS`.
fn input(made: &Made) -> Input<'_> {
    let program = |steps: usize| {
        let mut list = vec![0; steps];
        Program::new(TOWERCLOAK, move || {
            let mut answer = Ok(());
            let cost = mean(4, || {
                clock(|| answer = black_box(walk(made, steps, &mut list)))
            });
            answer.map(|()| cost)
        })
    };
    Input {
        bytes: size_of_val(&made.table[..]),
        programs: vec![program(1), program(STEPS)],
    }
}

fn measure() -> Fallible<()> {
    let tables = ROWS.map(made);
    let mut inputs: Vec<Input> = tables.iter().map(input).collect();
    let costs = medians(&mut inputs)?;
    println!("| rows | {TOWERCLOAK}, 1 step, ms | {STEPS} steps, ms | {SECOND}, 1 step, ms |");
    println!("|---|---|---|---|");
    for ((rows, made), costs) in ROWS.iter().zip(&tables).zip(costs) {
        let mut answer = Ok(());
        let second = clock(|| answer = second(made, &mut [0]));
        answer?;
        let [one, many] = [0, 1].map(|at: usize| costs[at].seconds * 1e3);
        println!(
            "| {rows} | {one:.1} | {many:.1} | {:.0} |",
            second.as_secs_f64() * 1e3
        );
    }
    Ok(())
}

fn main() -> ExitCode {
    end(measure())
}
