//! Compares the proved reader of DCFG texts with the second one, which finds all
//! faults of a text and gives the first: the answers and both lent tables whole, on
//! generated texts, sound, faulty and damaged, and on the samples.
//!
//! `dcfg [TEXTS] [--seed SEED]`

#![forbid(unsafe_code)]

use harness::counts::Table;
use harness::entries;
use harness::proved;
use harness::suite::{self, Words};
use logs::random::Random;
use second::dcfg::{self, Answer, EDGE_TABLE, THREAD_TABLE};
use std::fs;
use std::process::ExitCode;
use texts::{text, Kind};

/// Texts where no number is given.
const TEXTS: u64 = 120_000;
/// Numbers behind the lent tables.
const BEHIND: usize = 8;
/// One in this many texts is a long one, and one gets short tables.
const LONG: u64 = 2000;
const SHORT: u64 = 50;

/// Tables for both readers, which hold no zeros before a call.
struct Lent {
    before: [Vec<u64>; 2],
    proved: [Vec<u64>; 2],
    second: [Vec<u64>; 2],
}

impl Lent {
    fn new() -> Lent {
        let random = &mut Random::new(1);
        let mut dirt =
            |numbers: usize| (0..numbers + BEHIND).map(|_| random.number() | 1).collect();
        let before: [Vec<u64>; 2] = [dirt(EDGE_TABLE), dirt(THREAD_TABLE)];
        Lent {
            proved: before.clone(),
            second: before.clone(),
            before,
        }
    }

    /// Reads a text with tables of these lengths. The text tells of a difference.
    fn compare(&mut self, text: &[u8], lengths: [usize; 2]) -> Result<Answer, String> {
        let [edges, threads] = lengths;
        for (lent, before) in self.proved.iter_mut().zip(&self.before) {
            lent.copy_from_slice(before);
        }
        for (lent, before) in self.second.iter_mut().zip(&self.before) {
            lent.copy_from_slice(before);
        }
        let [one, other] = &mut self.proved;
        let found = proved::dcfg(text, &mut one[..edges], &mut other[..threads]);
        let [one, other] = &mut self.second;
        let expected = dcfg::read(text, &mut one[..edges], &mut other[..threads]);
        let numbers = match expected {
            Answer::Listed { edges, threads } => (0, [edges, threads], 0),
            Answer::Refused { number, place } => (u32::from(number), [0, 0], place),
        };
        if found != numbers {
            return Err(format!("{found:?}, expected {numbers:?}"));
        }
        match self.proved == self.second {
            true => Ok(expected),
            false => Err(format!("{found:?}, but other tables")),
        }
    }
}

/// The kind of a text by its place in the run.
fn kind(index: u64, short: &[Kind], long: &[Kind]) -> Kind {
    match index % LONG {
        0 => long[(index / LONG) as usize % long.len()],
        _ => short[index as usize % short.len()],
    }
}

/// The lengths of the tables: at times too short, or longer than is written.
fn lengths(random: &mut Random) -> [usize; 2] {
    let mut length = |numbers: usize| match random.once_in(SHORT) {
        true => random.index(numbers),
        false => numbers + random.index(BEHIND),
    };
    [length(EDGE_TABLE), length(THREAD_TABLE)]
}

fn number(answer: Answer) -> usize {
    match answer {
        Answer::Listed { .. } => 0,
        Answer::Refused { number, .. } => usize::from(number),
    }
}

fn run(words: Words) -> Result<String, String> {
    let (count, first) = words.cases(TEXTS)?;
    let (short, long) = (Kind::short(), Kind::long());
    let mut lent = Lent::new();
    let mut answers = Table::refusals("answers", [("texts", entries::DCFG)]);
    for index in 0..count {
        let (kind, seed) = (kind(index, &short, &long), first.wrapping_add(index));
        let text = text(kind, seed);
        let lengths = lengths(&mut Random::new(!seed));
        let answer = lent.compare(&text, lengths).map_err(|difference| {
            let shown = String::from_utf8_lossy(&text[..text.len().min(600)]).into_owned();
            format!("difference: {kind:?}, own seed {seed:#018x}: {difference}\n  {shown}")
        })?;
        answers.count(0, number(answer));
    }
    let folder = concat!(env!("CARGO_MANIFEST_DIR"), "/../samples/dcfg");
    for entry in fs::read_dir(folder).map_err(|error| format!("{folder}: {error}"))? {
        let path = entry.map_err(|error| error.to_string())?.path();
        if path.extension().is_some_and(|word| word == "json") {
            let text = fs::read(&path).map_err(|error| error.to_string())?;
            let answer = lent.compare(&text, [EDGE_TABLE, THREAD_TABLE]);
            let answer = answer.map_err(|text| format!("{}: {text}", path.display()))?;
            answers.count(0, number(answer));
        }
    }
    suite::seen(&[&answers])?;
    Ok(format!("dcfg: {} texts, no difference", answers.sum()))
}

fn main() -> ExitCode {
    suite::main(run)
}
