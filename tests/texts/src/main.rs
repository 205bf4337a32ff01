//! texts make SEED COUNT   writes as many texts to standard output, each behind
//!                         its length
//! texts answer            reads such texts from standard input, and prints the
//!                         second program's lines to each, with an empty line
//!                         behind them

use std::env;
use std::io::{self, Read, Write};
use std::process::ExitCode;
use texts::{batch, text, Kind};

/// Every second text is near a JSON text or is one; the others are of all short
/// kinds in turn, and one in a thousand of the long ones.
fn make(seed: u64, count: u64) -> Vec<u8> {
    let near = [Kind::NearJson, Kind::AnyJson, Kind::NearJson];
    let (short, long) = (Kind::short(), Kind::long());
    let mut stream = Vec::new();
    for index in 0..count as usize {
        let kind = match (index % 1000, index % 2) {
            (999, _) => long[index / 1000 % long.len()],
            (_, 0) => near[index / 2 % near.len()],
            _ => short[index / 2 % short.len()],
        };
        let seed = seed.wrapping_add(index as u64);
        batch::put(&mut stream, &text(kind, seed));
    }
    stream
}

fn answers(stream: &[u8]) -> Vec<u8> {
    let answer = |text: &[u8]| second::dcfg::lines(text) + "\n";
    let answers: String = batch::texts(stream).into_iter().map(answer).collect();
    answers.into_bytes()
}

fn output(words: &[String]) -> io::Result<Option<Vec<u8>>> {
    let words: Vec<&str> = words.iter().map(String::as_str).collect();
    match words[..] {
        ["make", seed, count] => {
            let numbers = seed.parse().ok().zip(count.parse().ok());
            Ok(numbers.map(|(seed, count)| make(seed, count)))
        }
        ["answer"] => {
            let mut stream = Vec::new();
            io::stdin().read_to_end(&mut stream)?;
            Ok(Some(answers(&stream)))
        }
        _ => Ok(None),
    }
}

fn main() -> io::Result<ExitCode> {
    let words: Vec<String> = env::args().skip(1).collect();
    match output(&words)? {
        Some(bytes) => {
            io::stdout().write_all(&bytes)?;
            Ok(ExitCode::SUCCESS)
        }
        None => {
            eprintln!("usage: texts make SEED COUNT | texts answer");
            Ok(ExitCode::from(2))
        }
    }
}
