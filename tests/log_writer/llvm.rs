//! Logs by the proved writer, read by LLVM's `llvm-xray fdr-dump`. Its output
//! must be the accepted records, in order and with all their fields; and with
//! `--verify` it must find their order right.
//!
//! Tried with version 14, on little-endian logs. It shows nothing of the header.
//! Behind EndOfBuffer it reads on in the skipped rest, 8 zero bytes at a time as
//! an Entry of function 0; a rest of another length puts the next buffer out of
//! step, or is refused at the log's end. An event of 0 bytes is refused. So these
//! logs have buffers and events of a multiple of 8 bytes, and no empty event.
//! `--verify` takes a CallArgument behind any function record.

use crate::call::Call;
use crate::counts::Counts;
use crate::making;
use crate::session::Session;
use harness::counts::Table;
use harness::record::{self, Fields};
use harness::suite;
use logs::random::Random;
use second::order::Order;
use second::record::Record;
use second::walk::{walk, Stage};
use std::path::Path;
use std::process::Command;

const LOGS: u64 = 200;
/// The most buffers of a log.
const BUFFERS: u64 = 16;
/// The most calls in a buffer.
const CALLS: u64 = 40;

/// Compares all logs. Gives a line that tells what was done; the text tells of
/// a difference, or that there is no `llvm-xray`.
pub fn run(seed: u64) -> Result<String, String> {
    let program = std::env::var("LLVM_XRAY").unwrap_or("llvm-xray".to_string());
    let folder = std::env::temp_dir().join(format!("log-writer-{}", std::process::id()));
    std::fs::create_dir_all(&folder).map_err(|fault| fault.to_string())?;
    let compared = logs(&program, &folder.join("log.fdr"), seed);
    std::fs::remove_dir_all(&folder).map_err(|fault| fault.to_string())?;
    let records = compared?;
    suite::seen(&[&records])?;
    let sum = records.sum();
    Ok(format!(
        "llvm: {LOGS} logs, {sum} records, as {program} reads them"
    ))
}

/// The records by their kinds, without those that are never written.
fn logs(program: &str, path: &Path, seed: u64) -> Result<Table, String> {
    let (_, written) = record::NAMES.split_last().expect("some records");
    let mut records = Table::counting("read by LLVM", "records", written);
    for index in 0..LOGS {
        let random = &mut Random::new(seed.wrapping_add(index));
        log(program, path, random, &mut records)
            .map_err(|text| format!("llvm, --seed {seed:#018x}, log {index}: {text}"))?;
    }
    Ok(records)
}

/// Writes one log, and compares what LLVM reads.
fn log(program: &str, path: &Path, random: &mut Random, records: &mut Table) -> Result<(), String> {
    let size = 64 + 8 * random.below(64);
    let buffers = 1 + random.below(BUFFERS);
    let mut counts = Counts::new();
    let length = 32 + size * buffers;
    let mut session = Session::new(random, &mut counts, Order::Little, length as usize);
    write(&mut session, size, buffers)?;
    session.read_back()?;
    std::fs::write(path, session.log()).map_err(|fault| fault.to_string())?;
    let dump = output(Command::new(program).arg("fdr-dump").arg(path))?;
    compare(&session, &dump)?;
    let verify = ["fdr-dump", "--verify"];
    output(Command::new(program).args(verify).arg(path))?;
    for (record, _) in session.records() {
        records.count(Fields::from(record).name(), 0);
    }
    Ok(())
}

/// What a command prints; the text tells that it failed.
fn output(command: &mut Command) -> Result<Vec<u8>, String> {
    let name = command.get_program().to_string_lossy().to_string();
    let output = command.output();
    let output = output.map_err(|fault| format!("{name}: {fault}"))?;
    if !output.status.success() || !output.stderr.is_empty() {
        return Err(String::from_utf8_lossy(&output.stderr).to_string());
    }
    Ok(output.stdout)
}

/// A whole log. Refused calls are in it as well, and leave nothing.
fn write(session: &mut Session, size: u64, buffers: u64) -> Result<(), String> {
    let start = making::start(session.random, Order::Little, size);
    session.call(&start)?;
    for _ in 0..buffers {
        let open = making::open(session.random);
        session.call(&open)?;
        for _ in 0..session.random.below(CALLS) {
            let add = add(session);
            session.call(&add)?;
        }
        session.call(&Call::Close)?;
    }
    Ok(())
}

fn add(session: &mut Session) -> Call {
    let arguments = session.stage() == Some(Stage::Arguments);
    let kind = making::kind(session.random, arguments);
    let length = 8 * (1 + session.random.index(6));
    making::record(session.random, kind, length)
}

/// The dump is the line of each record, and of each 8 bytes of a skipped rest.
fn compare(session: &Session, dump: &[u8]) -> Result<(), String> {
    let mut left = dump;
    let (items, _) = walk(session.log(), Order::Little);
    for ((record, event), item) in session.records().iter().zip(items) {
        let mut lines = line(record, event);
        if *record == Record::EndOfBuffer {
            let rest = item.next_place - item.place - 16;
            let zeros = line(
                &Record::Function {
                    action: 0,
                    id: 0,
                    delta: 0,
                },
                &[],
            );
            lines.extend(zeros.repeat(rest as usize / 8));
        }
        left = left.strip_prefix(&lines[..]).ok_or_else(|| {
            let shown = String::from_utf8_lossy(&left[..left.len().min(200)]);
            format!("{record:?} at {} is shown as {shown}", item.place)
        })?;
    }
    match left {
        [] => Ok(()),
        _ => Err("more is shown than was written".to_string()),
    }
}

/// How LLVM shows a record.
fn line(record: &Record, event: &[u8]) -> Vec<u8> {
    let text = match *record {
        Record::NewBuffer { thread } => format!("Thread ID: {thread}"),
        Record::EndOfBuffer => "End of Buffer".to_string(),
        Record::NewCpuId { cpu, tsc } => format!("CPU: id = {cpu}, tsc = {tsc}"),
        Record::TscWrap { tsc } => format!("TSC Wrap: base = {tsc}"),
        Record::WallTime { seconds, micros } => {
            format!("Wall Time: seconds = {seconds}.{micros:06}")
        }
        Record::CustomEvent { size, tsc } => {
            let marker = format!("<Custom Event: tsc = {tsc}, cpu = 0, size = {size}, data = '");
            return [marker.as_bytes(), event, b"'>\n"].concat();
        }
        Record::CallArgument { argument } => {
            format!("Call Argument: data = {argument} (hex = {argument:#x})")
        }
        Record::Function { action, id, delta } => {
            let names = ["Enter", "Exit", "Tail Exit", "Enter With Arg"];
            let name = names[usize::from(action)];
            format!("Function {name}: #{id} delta = +{delta}")
        }
    };
    format!("<{text}>\n").into_bytes()
}
