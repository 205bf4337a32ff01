//! Compares the proved walk of transition tables with the second one, the whole
//! lent list too, on generated tables and walks, and on some of about as many
//! rows as the proved one sorts at a time.
//!
//! `walk [CASES] [--seed SEED]`

#![forbid(unsafe_code)]

mod counts;

use counts::Counts;
use harness::proved;
use harness::suite::{self, Words};
use logs::random::Random;
use std::process::ExitCode;
use tables::{Case, Kind, Large};

/// Cases where no number is given.
const CASES: u64 = 110_000;
/// Numbers behind the lent list.
const BEHIND: usize = 4;

/// The refusal's number of both, or 0. The text tells of a difference.
fn compare(case: &Case, random: &mut Random) -> Result<u32, String> {
    let before: Vec<u64> = (0..case.length + BEHIND).map(|_| random.number()).collect();
    let (mut one, mut other) = (before.clone(), before);
    let (table, bits) = (&case.table[..], &case.bits[..]);
    let lent = &mut one[..case.length];
    let proved = proved::walk(table, case.start, bits, case.wanted, lent);
    let lent = &mut other[..case.length];
    let second = second::transitions::walk(table, case.start, bits, case.wanted, lent);
    let second = second.err().map_or(0, u32::from);
    if proved != second {
        return Err(format!("{proved}, expected {second}"));
    }
    match one.iter().zip(&other).position(|(one, other)| one != other) {
        Some(place) => {
            let (found, expected) = (one[place], other[place]);
            Err(format!(
                "number {place} of the list is {found}, expected {expected}"
            ))
        }
        None => Ok(proved),
    }
}

/// What to say of a difference.
fn difference(name: &str, seed: u64, case: &Case, text: &str) -> String {
    let shown = match case.table.len() {
        0..=400 => format!("{case:?}"),
        numbers => format!("{numbers} numbers"),
    };
    format!("difference: {name}, own seed {seed:#018x}: {text}\n  {shown}")
}

fn run(words: Words) -> Result<String, String> {
    let (cases, first) = words.cases(CASES)?;
    let mut counts = Counts::new();
    let check = |name: &str, seed: u64, case: &Case| {
        let number = compare(case, &mut Random::new(!seed));
        number.map_err(|text| difference(name, seed, case, &text))
    };
    for index in 0..cases {
        let (kind, seed) = (Kind::at(index), first.wrapping_add(index));
        let case = tables::case(kind, seed);
        let number = check(&format!("{kind:?}"), seed, &case)?;
        counts.count(kind, &case, number);
    }
    for large in Large::ALL {
        let case = tables::large(first, large);
        let number = check(&format!("{large:?}"), first, &case)?;
        counts.large(large, number);
    }
    suite::seen(&counts.tables())?;
    let walks = counts.answers.sum();
    Ok(format!("walk: {walks} walks, no difference"))
}

fn main() -> ExitCode {
    suite::main(run)
}
