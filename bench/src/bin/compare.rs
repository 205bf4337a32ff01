//! Measures one comparison of two times: the proved one and the second
//! program's, both as calls with the same ten numbers. A call that only adds
//! its ten numbers is measured as well, since reading and passing them is part
//! of all three figures.

use bench::measure::{clock, mean, passes, Input, Program};
use bench::process::end;
use bench::table::{self, SECOND, TOWERCLOAK};
use bench::{Fallible, MIB, SIZES};
// Links the proved code.
use harness as _;
use logs::random::Random;
use second::compare::Side;
use std::hint::black_box;
use std::process::ExitCode;

/// Times that a round goes over as many bytes as the largest input has.
const PASSES: usize = 16;

/// The ten numbers of a comparison, in the order of its arguments.
type Pair = [u64; 10];
type Call = unsafe extern "C" fn(u64, u64, u64, u64, u64, u64, u64, u64, u64, u64) -> u32;

mod c {
    extern "C" {
        pub fn towercloak_compare(
            frequency_a: u64,
            constant_tsc_a: u64,
            closed_a: u64,
            backward_a: u64,
            ticks_a: u64,
            frequency_b: u64,
            constant_tsc_b: u64,
            closed_b: u64,
            backward_b: u64,
            ticks_b: u64,
        ) -> u32;
    }
}

#[allow(clippy::too_many_arguments)]
extern "C" fn second_compare(
    frequency_a: u64,
    constant_tsc_a: u64,
    closed_a: u64,
    backward_a: u64,
    ticks_a: u64,
    frequency_b: u64,
    constant_tsc_b: u64,
    closed_b: u64,
    backward_b: u64,
    ticks_b: u64,
) -> u32 {
    let a = Side {
        frequency: frequency_a,
        constant_tsc: constant_tsc_a,
        closed: closed_a,
        backward: backward_a,
        ticks: ticks_a,
    };
    let b = Side {
        frequency: frequency_b,
        constant_tsc: constant_tsc_b,
        closed: closed_b,
        backward: backward_b,
        ticks: ticks_b,
    };
    second::compare::compare(a, b)
}

#[allow(clippy::too_many_arguments)]
extern "C" fn sum(
    a: u64,
    b: u64,
    c: u64,
    d: u64,
    e: u64,
    f: u64,
    g: u64,
    h: u64,
    i: u64,
    j: u64,
) -> u32 {
    let numbers = [a, b, c, d, e, f, g, h, i, j];
    numbers.into_iter().fold(0, u64::wrapping_add) as u32
}

const CALLS: [(&str, Call); 3] = [
    (TOWERCLOAK, c::towercloak_compare),
    (SECOND, second_compare),
    ("adding", sum),
];

/// A side of any ticks and any frequency, with a unit and a measured call.
fn side(random: &mut Random) -> [u64; 5] {
    let closed = random.number().max(1);
    let backward = random.below(closed);
    let frequency = random.number().max(1);
    [frequency, 1, closed, backward, random.number()]
}

/// Pairs that take at most so many MiB.
fn pairs(mib: usize) -> Vec<Pair> {
    let random = &mut Random::new(1);
    let mut pair = || {
        let ([a, b, c, d, e], [f, g, h, i, j]) = (side(random), side(random));
        [a, b, c, d, e, f, g, h, i, j]
    };
    let number = mib * MIB / size_of::<Pair>();
    (0..number).map(|_| pair()).collect()
}

/// Goes over all pairs: a number made of all answers.
fn pass(pairs: &[Pair], call: Call) -> u64 {
    let mut checksum = 0u64;
    for &[a, b, c, d, e, f, g, h, i, j] in pairs {
        // SAFETY: each function takes any numbers and touches no memory.
        let answer = unsafe { call(a, b, c, d, e, f, g, h, i, j) };
        checksum = checksum.wrapping_mul(3).wrapping_add(u64::from(answer));
    }
    checksum
}

/// The two comparisons must give the same answers.
fn check(pairs: &[Pair]) -> Fallible<()> {
    let [proved, second, _] = CALLS.map(|(_, call)| pass(pairs, call));
    match proved == second {
        true => Ok(()),
        false => Err("the answers differ".to_string()),
    }
}

fn input(mib: usize, pairs: &[Pair]) -> Input<'_> {
    let program = |(name, call)| {
        let run = move || clock(|| _ = black_box(pass(pairs, black_box(call))));
        Program::new(name, move || Ok(mean(PASSES * passes(mib), run)))
    };
    Input {
        bytes: size_of_val(pairs),
        programs: CALLS.map(program).into(),
    }
}

fn measure() -> Fallible<()> {
    let pairs = SIZES.map(pairs);
    pairs.iter().try_for_each(|pairs| check(pairs))?;
    let inputs = SIZES.iter().zip(&pairs);
    let inputs = inputs.map(|(mib, pairs)| input(*mib, pairs)).collect();
    table::head();
    table::rows("compare", "pairs", inputs)
}

fn main() -> ExitCode {
    end(measure())
}
