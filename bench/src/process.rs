//! Processes: what they print, the time they take and their peak of memory.

use crate::measure::Cost;
use crate::Fallible;
use std::env;
use std::ffi::OsString;
use std::path::Path;
use std::process::{Command, ExitCode};

/// A program and its arguments.
pub type Words = Vec<OsString>;

/// The program of `host/` with a command, on a log.
pub fn towercloak(command: &str, log: &Path) -> Words {
    let program = concat!(env!("CARGO_MANIFEST_DIR"), "/../target/host/towercloak");
    vec![program.into(), command.into(), log.into()]
}

/// `llvm-xray`, or the program that `LLVM_XRAY` names, on a log.
pub fn llvm_xray(options: &[&str], log: &Path) -> Words {
    let program = env::var_os("LLVM_XRAY").unwrap_or("llvm-xray".into());
    let mut words = vec![program];
    words.extend(options.iter().map(OsString::from));
    words.push(log.into());
    words
}

/// What a command prints. The error tells why it failed.
pub fn output(command: &Words) -> Fallible<Vec<u8>> {
    let name = command[0].to_string_lossy();
    let output = Command::new(&command[0]).args(&command[1..]).output();
    let output = output.map_err(|error| format!("{name}: {error}"))?;
    if output.status.success() {
        Ok(output.stdout)
    } else {
        let errors = String::from_utf8_lossy(&output.stderr);
        Err(format!("{name}: {}, {errors}", output.status))
    }
}

/// What a command takes. It is started from the small program `timed`, since a
/// peak is never below that of the process it was started from.
pub fn cost(command: &Words) -> Fallible<Cost> {
    let own = env::current_exe().map_err(|error| error.to_string())?;
    let mut timed = vec![own.with_file_name("timed").into()];
    timed.extend(command.iter().cloned());
    let text = String::from_utf8_lossy(&output(&timed)?).into_owned();
    let numbers: Vec<f64> = text.split_whitespace().flat_map(str::parse).collect();
    match numbers[..] {
        [seconds, peak] => Ok(Cost {
            seconds,
            peak: Some(peak),
        }),
        _ => Err(format!("timed: {text}")),
    }
}

/// How a program ends: where something went wrong, it says so.
pub fn end(result: Fallible<()>) -> ExitCode {
    match result {
        Ok(()) => ExitCode::SUCCESS,
        Err(text) => {
            eprintln!("{text}");
            ExitCode::FAILURE
        }
    }
}
