//! The program that replays a log from standard input: what it prints,
//! compared byte by byte. Paper 01, "Sample logs". It takes every log for a
//! little-endian one; the big-endian ones here must be refused so.

use harness::counts::Table;
use harness::entries;
use harness::suite;
use logs::calls;
use logs::inputs::{self, Kind, Sample};
use logs::random::Random;
use second::order::Order;
use second::replay::{lines, INPUT};
use std::io::{self, ErrorKind, Write};
use std::path::Path;
use std::process::{Child, Command, Stdio};
use std::thread;
use std::time::Duration;

/// Little-endian logs of each generated kind; a big-endian one is enough.
const EACH: usize = 10;
/// Seeds tried for these, where many logs are longer than the program takes.
const TRIES: u64 = 400;
/// The time between two pieces, in which a reader takes the first one.
const PAUSE: Duration = Duration::from_micros(300);

/// What else is counted of its runs.
const RUNS: [&str; 3] = ["whole", "in pieces", "too long"];
const TOO_LONG: usize = 2;

/// Runs of the program.
struct Runs<'a> {
    program: &'a Path,
    kinds: Table,
    refusals: Table,
    runs: Table,
}

/// Runs the program on all inputs; gives their number, or tells of the first
/// difference.
pub fn run(program: &Path) -> Result<u64, String> {
    let mut runs = Runs {
        program,
        kinds: Table::kinds("samples and edges"),
        refusals: Table::refusals("refusals", [("program", entries::REPLAY_PROGRAM)]),
        runs: Table::counting("input", "runs", RUNS),
    };
    for kind in Kind::all() {
        for order in Order::ALL {
            for (name, log) in generated(kind, order) {
                // One run in three is fed in pieces.
                let seed = runs.kinds.sum();
                let parts = &parts(&log, seed, seed % 3 == 1);
                runs.one(kind.index(), order, &name, parts)?;
            }
        }
    }
    let mut others = edges();
    others.extend(inputs::samples()?);
    let row = Kind::all().len();
    for Sample { name, order, log } in others {
        runs.one(row, order, &name, &[&log])?;
        runs.one(row, order, &name, &parts(&log, runs.kinds.sum(), true))?;
        if log.len() > INPUT {
            runs.one(row, order, &name, &[&log[..INPUT], &log[INPUT..]])?;
        }
    }
    suite::seen(&[&runs.kinds, &runs.refusals, &runs.runs])?;
    Ok(runs.kinds.sum())
}

impl Runs<'_> {
    /// One run with an input of this row of the kinds, that was made in this
    /// order.
    fn one(&mut self, row: usize, order: Order, name: &str, parts: &[&[u8]]) -> Result<(), String> {
        let expected = lines(&parts.concat(), Order::Little);
        compare(self.program, name, parts, &expected)?;
        self.kinds.count(row, order as usize);
        self.runs.count(usize::from(parts.len() > 1), 0);
        let mut words = expected.split_whitespace();
        match (words.next(), words.next()) {
            (Some("rows"), _) => self.refusals.count(0, 0),
            (Some("refused"), Some(number)) => {
                let number = number.parse().expect("the number of a refusal");
                self.refusals.count(0, number);
            }
            _ => self.runs.count(TOO_LONG, 0),
        }
        Ok(())
    }
}

/// Logs of a kind and order that are short enough for the program; of a huge
/// kind, one that isn't.
fn generated(kind: Kind, order: Order) -> Vec<(String, Vec<u8>)> {
    let named = |seed| {
        let name = format!("kind {}, seed {seed}, {order:?}", kind.name());
        (name, kind.log(seed, order))
    };
    if kind.is_huge() {
        return vec![named(0)];
    }
    let logs = (0..TRIES).map(named);
    let each = match order {
        Order::Little => EACH,
        Order::Big => 1,
    };
    logs.filter(|(_, log)| log.len() <= INPUT)
        .take(each)
        .collect()
}

/// Inputs at the edges of what the program takes.
fn edges() -> Vec<Sample> {
    let mut logs = vec![Vec::new(), vec![1], vec![1; INPUT], vec![1; INPUT + 1]];
    for seed in 0..6 {
        logs.push(calls::of_length(INPUT, seed, Order::Little));
        logs.push(calls::of_length(INPUT + 1, seed, Order::Little));
    }
    for length in [INPUT - 1, INPUT + 2, INPUT + 64, 100_000, 131_072, 1 << 20] {
        logs.push(calls::of_length(length, 0, Order::Little));
    }
    // A log that is taken, and one byte more.
    let mut more = calls::of_length(INPUT, 1, Order::Little);
    more.push(0);
    logs.push(more);
    let bare = calls::of_length(200, 0, Order::Little);
    logs.push(bare[..31].to_vec());
    logs.push(bare[..32].to_vec());
    let named = |log: Vec<u8>| Sample {
        name: format!("edge of {} bytes", log.len()),
        order: Order::Little,
        log,
    };
    logs.into_iter().map(named).collect()
}

/// The log whole, or in about a hundred pieces.
fn parts(log: &[u8], seed: u64, pieces: bool) -> Vec<&[u8]> {
    if !pieces {
        return vec![log];
    }
    let random = &mut Random::new(seed);
    let most = 1 + log.len().min(INPUT + 1) / 50;
    let mut parts = Vec::new();
    let mut rest = log;
    while !rest.is_empty() && parts.len() < 200 {
        let (part, behind) = rest.split_at(rest.len().min(1 + random.index(most)));
        parts.push(part);
        rest = behind;
    }
    parts.push(rest);
    parts
}

/// One run with this input, which must print these lines.
fn compare(program: &Path, name: &str, parts: &[&[u8]], expected: &str) -> Result<(), String> {
    let fault = |error: io::Error| format!("{}: {error}", program.display());
    let mut child = Command::new(program)
        .stdin(Stdio::piped())
        .stdout(Stdio::piped())
        .spawn()
        .map_err(fault)?;
    let output = thread::scope(|scope| {
        let input = child.stdin.take();
        let feeder = scope.spawn(move || input.map_or(Ok(()), |input| feed(input, parts)));
        let output = Child::wait_with_output(child);
        feeder.join().expect("the feeder ends")?;
        output
    });
    let output = output.map_err(fault)?;
    // A program that a signal ended has no code.
    if output.stdout == expected.as_bytes() && output.status.code().is_some() {
        return Ok(());
    }
    Err(format!(
        "difference: program, {name}, in {} parts, {}\n  program {:?}\n  second  {:?}",
        parts.len(),
        output.status,
        start(&String::from_utf8_lossy(&output.stdout)),
        start(expected)
    ))
}

/// Writes the parts, with a pause between them. The program needn't read all
/// of an input that is too long.
fn feed(mut input: impl Write, parts: &[&[u8]]) -> io::Result<()> {
    for (index, part) in parts.iter().enumerate() {
        if index > 0 {
            thread::sleep(PAUSE);
        }
        match input.write_all(part).and_then(|()| input.flush()) {
            Err(error) if error.kind() == ErrorKind::BrokenPipe => return Ok(()),
            written => written?,
        }
    }
    Ok(())
}

/// As much of a text as a message has room for.
fn start(text: &str) -> String {
    text.chars().take(300).collect()
}
