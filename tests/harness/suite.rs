//! A suite as a program: its words, and how it ends.

use crate::counts::Table;
use std::process::ExitCode;

/// The seed of a run where no other is given.
const SEED: u64 = 0x5EED_0000_0000_0000;

/// The words that a suite is given: `[CASES] [--seed SEED]`, and its own.
pub struct Words(Vec<String>);

impl Words {
    /// Takes a word away, and tells whether it was there.
    pub fn flag(&mut self, name: &str) -> bool {
        let at = self.0.iter().position(|word| word == name);
        at.map(|at| self.0.remove(at)).is_some()
    }

    /// Takes a word away with the one behind it, which is told.
    pub fn behind(&mut self, name: &str) -> Result<Option<String>, String> {
        let Some(at) = self.0.iter().position(|word| word == name) else {
            return Ok(None);
        };
        let mut taken = self.0.drain(at..self.0.len().min(at + 2)).skip(1);
        taken.next().map(Some).ok_or(format!("what {name}?"))
    }

    /// The number of cases and the seed, which must be all that is left.
    pub fn cases(mut self, default: u64) -> Result<(u64, u64), String> {
        let seed = match self.behind("--seed")? {
            Some(text) => number(&text)?,
            None => SEED,
        };
        match &self.0[..] {
            [] => Ok((default, seed)),
            [cases] => Ok((number(cases)?, seed)),
            [_, other, ..] => Err(format!("what is {other}?")),
        }
    }
}

/// A number, in decimal or as hexadecimal digits behind `0x`.
fn number(text: &str) -> Result<u64, String> {
    let number = match text.strip_prefix("0x") {
        Some(digits) => u64::from_str_radix(digits, 16),
        None => text.parse(),
    };
    number.map_err(|_| format!("not a number: {text}"))
}

/// Runs a suite. It prints its last line, or what failed.
pub fn main(run: impl FnOnce(Words) -> Result<String, String>) -> ExitCode {
    let (text, code) = match run(Words(std::env::args().skip(1).collect())) {
        Ok(text) => (text, ExitCode::SUCCESS),
        Err(text) => (text, ExitCode::FAILURE),
    };
    println!("{text}");
    code
}

/// Prints what a run has seen. The text tells what it should have and hasn't.
pub fn seen(tables: &[&Table]) -> Result<(), String> {
    for table in tables {
        println!("{table}");
    }
    let faults: Vec<String> = tables.iter().flat_map(|table| table.faults()).collect();
    match faults.is_empty() {
        true => Ok(()),
        false => Err(faults.join("\n")),
    }
}

/// What to say of a difference in a log.
pub fn difference(name: &str, seed: u64, log: &[u8], text: &str) -> String {
    let length = log.len();
    format!("difference: {name}, own seed {seed:#018x}, {length} bytes\n  {text}")
}
