//! Measures the replay of logs: in memory the proved one, on both byte orders,
//! the second program's and the limit, and as processes the program of `host/` and `llvm-xray account`,
//! which read the log from its file.

use bench::limit;
use bench::log::{Kind, Log};
use bench::maker::FREQUENCY;
use bench::measure::{clock, mean, passes, Cost, Input, Program};
use bench::process::{self, end, llvm_xray, towercloak, Words};
use bench::table::{on_logs, Job, BIG_ENDIAN, LIMIT, SECOND, TOWERCLOAK};
use bench::Fallible;
use harness::proved;
use second::order::Order;
use second::replay::{Answer, ROW, TABLE};
use std::path::Path;
use std::process::ExitCode;

fn account(log: &Path) -> Words {
    llvm_xray(&["account", "--format=csv", "--sort=funcid"], log)
}

/// The replays must give the same table, in memory, in both byte orders and as a
/// process, and `llvm-xray` the same calls.
fn check(log: &Log) -> Fallible<()> {
    let mut table = vec![0; TABLE];
    let answer = second::replay::replay(&log.bytes, Order::Little, &mut table);
    let Answer::Report { rows, records, .. } = answer else {
        return Err(format!("second: {answer:?}"));
    };
    let mut same = vec![0; TABLE];
    for (order, bytes) in [(0, &log.bytes), (1, &log.turned)] {
        same.fill(1);
        let numbers = [0, 1, 3].map(|which| proved::replay(bytes, order, &mut same, which));
        if numbers != [0, rows, records] || same != table {
            let found = format!("{numbers:?} in order {order}");
            return Err(format!("towercloak: {found}, second: {answer:?}"));
        }
    }
    if !limit::replay(&log.bytes, &mut same) || same != table {
        return Err("limit: another table".to_string());
    }
    printed(&log.path, &table)?;
    accounted(&log.path, &table)
}

/// Compares what the program of `host/` prints with the rows.
fn printed(log: &Path, table: &[u64]) -> Fallible<()> {
    let text = String::from_utf8_lossy(&process::output(&towercloak("replay", log))?).into_owned();
    let rows = table.chunks(ROW).filter(|row| row[1] > 0);
    let line = |row: &[u64]| row.iter().map(u64::to_string).collect::<Vec<_>>().join(" ");
    match text.lines().skip(1).eq(rows.map(line)) {
        true => Ok(()),
        false => Err(format!("towercloak prints other rows:\n{text}")),
    }
}

/// Compares what `llvm-xray` finds with the rows: ids, numbers of calls, and
/// their times in seconds, of which it prints seven digits.
fn accounted(log: &Path, table: &[u64]) -> Fallible<()> {
    let text = String::from_utf8_lossy(&process::output(&account(log))?).into_owned();
    let mut rows: Vec<&[u64]> = table.chunks(ROW).filter(|row| row[2] > 0).collect();
    rows.sort();
    let lines: Vec<&str> = text.lines().skip(1).collect();
    let same = |(line, row): (&&str, &&[u64])| {
        let cells: Vec<&str> = line.split(',').collect();
        if cells.len() < 8 {
            return false;
        }
        let ticks = cells[7].parse().unwrap_or(f64::NAN) * FREQUENCY as f64;
        cells[..2] == [row[0].to_string(), row[2].to_string()]
            && (ticks / row[5] as f64 - 1.0).abs() < 1e-6
    };
    if lines.len() == rows.len() && lines.iter().zip(&rows).all(same) {
        Ok(())
    } else {
        Err(format!("llvm-xray finds other calls:\n{text}"))
    }
}

fn in_memory(log: &Log) -> Input<'_> {
    fn replaying<'a>(
        mib: usize,
        log: &'a [u8],
        replay: fn(&[u8], &mut [u64]),
    ) -> impl FnMut() -> Fallible<Cost> + 'a {
        let mut table = vec![0; TABLE];
        move || {
            let pass = || clock(|| replay(log, &mut table));
            Ok(mean(passes(mib), pass))
        }
    }
    let by_proved = |log: &[u8], table: &mut [u64]| assert_eq!(proved::replay(log, 0, table, 0), 0);
    let in_big = |log: &[u8], table: &mut [u64]| assert_eq!(proved::replay(log, 1, table, 0), 0);
    let by_second = |log: &[u8], table: &mut [u64]| {
        let answer = second::replay::replay(log, Order::Little, table);
        assert!(matches!(answer, Answer::Report { .. }));
    };
    let by_limit = |log: &[u8], table: &mut [u64]| assert!(limit::replay(log, table));
    Input {
        bytes: log.bytes.len(),
        programs: vec![
            Program::new(TOWERCLOAK, replaying(log.mib, &log.bytes, by_proved)),
            Program::new(BIG_ENDIAN, replaying(log.mib, &log.turned, in_big)),
            Program::new(SECOND, replaying(log.mib, &log.bytes, by_second)),
            Program::new(LIMIT, replaying(log.mib, &log.bytes, by_limit)),
        ],
    }
}

fn as_process(log: &Log) -> Input<'_> {
    let replay = towercloak("replay", &log.path);
    let account = account(&log.path);
    Input {
        bytes: log.bytes.len(),
        programs: vec![
            Program::new(TOWERCLOAK, move || process::cost(&replay)),
            Program::new("`llvm-xray account`", move || process::cost(&account)),
        ],
    }
}

fn measure() -> Fallible<()> {
    let kinds = [Kind::Plain, Kind::ManyIds, Kind::Falling, Kind::Mixed];
    let jobs: [Job; 2] = [
        ("replay in memory", in_memory),
        ("replay as a process", as_process),
    ];
    on_logs(&kinds, check, &jobs)
}

fn main() -> ExitCode {
    end(measure())
}
