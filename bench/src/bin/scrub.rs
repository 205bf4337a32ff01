//! Measures the scrubbing of logs: in memory the proved scrubber, on both byte
//! orders, and the second program's, and as processes the program of `host/`, which writes a scrubbed
//! copy, and `llvm-xray fdr-dump --verify`, which tests the log and prints it.
//!
//! `scrub`, or `scrub --before PROGRAM`, which only measures the program of
//! `host/` beside another one that scrubs alike.

use bench::log::{named, Kind, Log};
use bench::measure::{clock, mean, passes, Cost, Input, Program};
use bench::process::{self, end, llvm_xray, towercloak, Words};
use bench::table::{on_logs, BIG_ENDIAN, SECOND, TOWERCLOAK};
use bench::Fallible;
use harness::proved;
use logs::turn::turned;
use second::order::Order;
use second::walk;
use std::ffi::OsString;
use std::path::{Path, PathBuf};
use std::process::ExitCode;
use std::{env, fs};

/// The program of `host/` on a log, and the file that it writes.
fn host(log: &Path) -> (Words, PathBuf) {
    let mut result = log.as_os_str().to_owned();
    result.push(".scrubbed");
    (towercloak("scrub", log), result.into())
}

fn fdr_dump(log: &Path) -> Words {
    llvm_xray(&["fdr-dump", "--verify"], log)
}

/// The scrubbers must leave the same bytes, in memory, in both byte orders and in
/// the file, and `llvm-xray` must find as many records.
fn check(log: &Log) -> Fallible<()> {
    let (mut one, mut other) = (log.bytes.clone(), log.bytes.clone());
    let (number, _) = proved::scrub(&mut one, 0);
    let answer = second::scrub::scrub(&mut other, Order::Little);
    if number != 0 || answer.is_err() || one != other {
        return Err(format!("towercloak: {number}, second: {answer:?}"));
    }
    let mut big = log.turned.clone();
    let (number, _) = proved::scrub(&mut big, 1);
    if number != 0 || big != turned(&one, Order::Little) {
        return Err(format!("towercloak, big-endian: {number}, or other bytes"));
    }
    let (scrub, result) = host(&log.path);
    process::output(&scrub)?;
    let written = fs::read(&result).map_err(|error| named(&result, error))?;
    fs::remove_file(&result).map_err(|error| named(&result, error))?;
    if written != one {
        return Err(format!("{}: other bytes", result.display()));
    }
    let (records, shown) = (walk::walk(&log.bytes, Order::Little).0.len(), shown(log)?);
    match records == shown {
        true => Ok(()),
        false => Err(format!("{records} records, and llvm-xray shows {shown}")),
    }
}

/// The number of records that `llvm-xray` shows.
fn shown(log: &Log) -> Fallible<usize> {
    let names: [&[u8]; 8] = [
        b"<Thread ID: ",
        b"<Wall Time: ",
        b"<CPU: id",
        b"<TSC Wrap: ",
        b"<Function ",
        b"<Call Argument: ",
        b"<Custom Event: ",
        b"<End of Buffer>",
    ];
    let text = process::output(&fdr_dump(&log.path))?;
    let is_record = |at: &usize| names.iter().any(|name| text[*at..].starts_with(name));
    Ok((0..text.len()).filter(is_record).count())
}

/// Each scrubs a fresh copy, and copying isn't timed.
fn in_memory(log: &Log) -> Input<'_> {
    fn scrubbing<'a>(
        mib: usize,
        log: &'a [u8],
        scrub: fn(&mut [u8]),
    ) -> impl FnMut() -> Fallible<Cost> + 'a {
        let mut copy = log.to_vec();
        move || {
            let pass = || {
                copy.copy_from_slice(log);
                clock(|| scrub(&mut copy))
            };
            Ok(mean(passes(mib), pass))
        }
    }
    let by_proved = |log: &mut [u8]| assert_eq!(proved::scrub(log, 0).0, 0);
    let in_big = |log: &mut [u8]| assert_eq!(proved::scrub(log, 1).0, 0);
    let by_second = |log: &mut [u8]| assert!(second::scrub::scrub(log, Order::Little).is_ok());
    Input {
        bytes: log.bytes.len(),
        programs: vec![
            Program::new(TOWERCLOAK, scrubbing(log.mib, &log.bytes, by_proved)),
            Program::new(BIG_ENDIAN, scrubbing(log.mib, &log.turned, in_big)),
            Program::new(SECOND, scrubbing(log.mib, &log.bytes, by_second)),
        ],
    }
}

/// What one scrubbing takes, whose copy is taken away again.
fn scrub_once(scrub: &Words, result: &Path) -> Fallible<Cost> {
    let cost = process::cost(scrub)?;
    fs::remove_file(result).map_err(|error| named(result, error))?;
    Ok(cost)
}

fn as_process(log: &Log) -> Input<'_> {
    let (scrub, result) = host(&log.path);
    let dump = fdr_dump(&log.path);
    Input {
        bytes: log.bytes.len(),
        programs: vec![
            Program::new(TOWERCLOAK, move || scrub_once(&scrub, &result)),
            Program::new("`llvm-xray fdr-dump --verify`", move || {
                process::cost(&dump)
            }),
        ],
    }
}

/// The program of `host/` and another one.
fn beside(log: &Log) -> Input<'_> {
    let (scrub, result) = host(&log.path);
    let mut other = scrub.clone();
    other[0] = env::args_os().nth(2).expect("a program");
    let copy = result.clone();
    Input {
        bytes: log.bytes.len(),
        programs: vec![
            Program::new(TOWERCLOAK, move || scrub_once(&scrub, &result)),
            Program::new("before", move || scrub_once(&other, &copy)),
        ],
    }
}

fn main() -> ExitCode {
    let words: Vec<OsString> = env::args_os().skip(1).collect();
    let kinds = [Kind::Plain, Kind::Mixed];
    end(match &words[..] {
        [] => on_logs(
            &kinds,
            check,
            &[
                ("scrub in memory", in_memory),
                ("scrub as a process", as_process),
            ],
        ),
        [mode, _] if mode == "--before" => {
            on_logs(&kinds, check, &[("scrub as a process", beside)])
        }
        _ => Err("scrub [--before PROGRAM]".to_string()),
    })
}
