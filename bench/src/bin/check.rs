//! Measures the check of a log against a reference, as processes: the program
//! of `host/`, and `llvm-xray graph-diff`, which draws how two logs differ.
//!
//! The reference has the log's calls at half the log's frequency, so that each
//! function takes twice as long there, and the check passes.

use bench::log::{named, Kind, Log};
use bench::maker::FREQUENCY;
use bench::measure::{Input, Program};
use bench::process::{self, end, llvm_xray, towercloak, Words};
use bench::table::{on_logs, Job, TOWERCLOAK};
use bench::Fallible;
use std::fs;
use std::path::{Path, PathBuf};
use std::process::ExitCode;

/// Where the header has its frequency.
const FREQUENCY_AT: usize = 8;

fn reference(log: &Path) -> PathBuf {
    log.with_extension("reference")
}

fn against(mut words: Words, log: &Path) -> Words {
    words.push(reference(log).into());
    words
}

fn checking(log: &Path) -> Words {
    against(towercloak("check", log), log)
}

fn diffing(log: &Path) -> Words {
    against(llvm_xray(&["graph-diff"], log), log)
}

/// Writes the reference. The check must find each function lower, and
/// `llvm-xray` must draw each.
fn check(log: &Log) -> Fallible<()> {
    let mut bytes = log.bytes.clone();
    bytes[FREQUENCY_AT..FREQUENCY_AT + 8].copy_from_slice(&(FREQUENCY / 2).to_le_bytes());
    let path = reference(&log.path);
    fs::write(&path, bytes).map_err(|error| named(&path, error))?;
    let text = String::from_utf8_lossy(&process::output(&checking(&log.path))?).into_owned();
    let graph = String::from_utf8_lossy(&process::output(&diffing(&log.path))?).into_owned();
    let mut lines: Vec<&str> = text.lines().skip(1).collect();
    lines.pop();
    let id = |line: &&str| line.split_whitespace().next().unwrap_or("").to_string();
    let alike = |line: &&str| line.ends_with("  lower") && graph.contains(&id(line));
    match !lines.is_empty() && lines.iter().all(alike) {
        true => Ok(()),
        false => Err(format!("other functions:\n{text}{graph}")),
    }
}

fn as_process(log: &Log) -> Input<'_> {
    let (check, diff) = (checking(&log.path), diffing(&log.path));
    Input {
        bytes: log.bytes.len(),
        programs: vec![
            Program::new(TOWERCLOAK, move || process::cost(&check)),
            Program::new("`llvm-xray graph-diff`", move || process::cost(&diff)),
        ],
    }
}

fn main() -> ExitCode {
    let jobs: [Job; 1] = [("check as a process", as_process)];
    let kinds = [Kind::Plain, Kind::ManyIds, Kind::Mixed];
    end(on_logs(&kinds, check, &jobs))
}
