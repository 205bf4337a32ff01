//! Measures logs that arrive in reads: in memory by the proved stream, with its state
//! by value and by the functions for C, against the whole replay, one byte at a time
//! on logs of several lengths, and `replay_stream` on a long log from a pipe.

use bench::log::{Folder, Kind, Log};
use bench::maker::made;
use bench::measure::{clock, mean, medians, passes, Cost, Input, Program};
use bench::process::end;
use bench::{Fallible, MIB};
use harness::proved;
use second::replay::TABLE;
use std::fs;
use std::io::Write;
use std::process::{Command, ExitCode, Stdio};
use std::time::Instant;

/// The numbers of a stream's state, and the answer for more, as the header has them.
const STATE: usize = 1138;
const MORE: u32 = 255;
/// The lengths of the logs that are fed one byte at a time.
const SHORT: [usize; 3] = [16384, 65536, 262_144];
/// The length of the log that comes from a pipe, in parts.
const PARTS: usize = 4;
const PART: usize = 256 * MIB;
/// How often it comes.
const PIPES: usize = 11;

/// Feeds a log in reads of this length, and tells the end: what must be the whole
/// replay's table.
fn in_reads(log: &[u8], length: usize, table: &mut [u64]) {
    let mut state = vec![0; STATE];
    proved::stream_start(&mut state, 0);
    for read in log.chunks(length) {
        assert_eq!(proved::stream_feed(&mut state, read, table).answer, MORE);
    }
    assert_eq!(proved::stream_end(&mut state, table).answer, 0);
}

fn check(log: &[u8], length: usize) -> Fallible<()> {
    let (mut whole, mut table) = (vec![0; TABLE], vec![1; TABLE]);
    assert_eq!(proved::replay(log, 0, &mut whole, 0), 0);
    in_reads(log, length, &mut table);
    let same = whole == table;
    table.fill(1);
    assert_eq!(proved::reads(log, 0, length as u64, &mut table), 0);
    match same && whole == table {
        true => Ok(()),
        false => Err(format!("reads of {length}: another table")),
    }
}

/// The whole replay, and reads of these lengths.
fn programs<'a>(log: &'a [u8], mib: usize, lengths: &[usize]) -> Input<'a> {
    let running = |run: Box<dyn Fn(&mut [u64]) + 'a>| {
        let mut table = vec![0; TABLE];
        move || -> Fallible<Cost> { Ok(mean(passes(mib), || clock(|| run(&mut table)))) }
    };
    let whole = Box::new(move |table: &mut [u64]| {
        proved::replay(log, 0, table, 0);
    });
    let mut programs = vec![Program::new("whole", running(whole))];
    for length in lengths.iter().copied() {
        let reads = Box::new(move |table: &mut [u64]| {
            proved::reads(log, 0, length as u64, table);
        });
        programs.push(Program::new("reads", running(reads)));
        let reads = Box::new(move |table: &mut [u64]| in_reads(log, length, table));
        programs.push(Program::new("reads for C", running(reads)));
    }
    Input {
        bytes: log.len(),
        programs,
    }
}

/// A line of the table: the time of each against the whole replay's.
fn line(log: &[u8], name: &str, mib: usize, lengths: &[usize]) -> Fallible<()> {
    lengths.iter().try_for_each(|length| check(log, *length))?;
    let costs = medians(&mut [programs(log, mib, lengths)])?;
    let whole = costs[0][0].seconds;
    for (length, cost) in lengths.iter().zip(costs[0][1..].chunks(2)) {
        let [own, for_c] = [cost[0].seconds, cost[1].seconds];
        let (length, own_ratio, c_ratio) = (told(*length, log), own / whole, for_c / whole);
        println!("| {name} | {length} | {own_ratio:.2} | {c_ratio:.2} |");
        let each = |time: f64| time * 1e9 / log.len() as f64;
        let [own, for_c] = [own, for_c].map(each);
        eprintln!("{name}, reads of {length}: {own:.2} ns a byte, for C {for_c:.2}");
    }
    Ok(())
}

/// A read's length in words.
fn told(length: usize, log: &[u8]) -> String {
    match length {
        _ if length == log.len() => "the whole log".to_string(),
        1000.. => format!("{},{:03} bytes", length / 1000, length % 1000),
        _ => format!("{length} bytes"),
    }
}

/// A long log through a pipe, the buffer of sample B over and over: the seconds of each
/// part, and the peak of memory in kB.
fn piped() -> Fallible<(Vec<f64>, u64)> {
    let program = concat!(env!("CARGO_MANIFEST_DIR"), "/../target/bin/replay_stream");
    let mut child = Command::new(program)
        .stdin(Stdio::piped())
        .stdout(Stdio::null())
        .spawn()
        .map_err(|error| format!("{program}: {error}"))?;
    let sample = concat!(env!("CARGO_MANIFEST_DIR"), "/../samples/b.fdr");
    let sample = fs::read(sample).map_err(|error| format!("{sample}: {error}"))?;
    let (header, buffer) = sample.split_at(32);
    let buffers = buffer.repeat(MIB / buffer.len());
    let mut pipe = child.stdin.take().ok_or("no pipe")?;
    let mut put = |bytes: &[u8]| pipe.write_all(bytes).map_err(|error| error.to_string());
    put(header)?;
    let mut seconds = Vec::new();
    for _ in 0..PARTS {
        let start = Instant::now();
        for _ in 0..PART / buffers.len() {
            put(&buffers)?;
        }
        seconds.push(start.elapsed().as_secs_f64());
    }
    let status = fs::read_to_string(format!("/proc/{}/status", child.id()));
    let status = status.map_err(|error| error.to_string())?;
    let peak = status.lines().find_map(|line| line.strip_prefix("VmHWM:"));
    let peak = peak.and_then(|peak| peak.trim().trim_end_matches(" kB").parse().ok());
    drop(pipe);
    let ended = child.wait().map_err(|error| error.to_string())?;
    match ended.success() {
        true => Ok((seconds, peak.ok_or("no peak")?)),
        false => Err(format!("{program}: {ended}")),
    }
}

/// The rate of each part against the first's, by the median times of all runs, and the
/// highest peak.
fn pipes() -> Fallible<()> {
    let runs = (0..PIPES).map(|_| piped()).collect::<Fallible<Vec<_>>>()?;
    let median = |part: usize| {
        let mut seconds: Vec<f64> = runs.iter().map(|run| run.0[part]).collect();
        seconds.sort_by(f64::total_cmp);
        seconds[PIPES / 2]
    };
    let rates: Vec<String> = (0..PARTS)
        .map(|part| format!("{:.2}", median(0) / median(part)))
        .collect();
    let peak = runs.iter().map(|run| run.1).max().unwrap_or(0);
    println!("\n`replay_stream` on {} MiB from a pipe, {PIPES} times, each {} MiB against the first by their median times: rates of {}; peak of memory {peak} kB.", PARTS * PART / MIB, PART / MIB, rates.join(", "));
    Ok(())
}

fn measure() -> Fallible<()> {
    println!("| log | reads of | time, against the whole replay | by the functions for C |");
    println!("|---|---|---|---|");
    let folder = Folder::new()?;
    for kind in [Kind::Plain, Kind::ManyIds, Kind::Mixed] {
        let logs = Log::all(kind, &folder)?;
        let log = &logs[logs.len() - 1];
        line(
            &log.bytes,
            &format!("{}, {} MiB", kind.name(), log.mib),
            log.mib,
            &[log.bytes.len(), 65536, 4096],
        )?;
        if let Kind::Plain = kind {
            for length in SHORT {
                let log = made(kind, length);
                line(&log, &format!("plain, {} KiB", length / 1024), 16, &[1])?;
            }
        }
    }
    pipes()
}

fn main() -> ExitCode {
    end(measure())
}
