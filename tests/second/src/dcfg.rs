//! The reader of DCFG texts. Paper 02, CR 6, over source document 000; the
//! kinds, ids and needed columns by Paper 01's first paragraph.
//!
//! All faults of a text are found, each with its place, and "the first in
//! reading order is given", among those of one place the one named first. The
//! last two count only where there are no others.

mod faults;
mod judge;
mod kinds;
mod tables;

use crate::json;

/// Numbers of a row of the edge table: process, id, source, target, type.
pub const EDGE: usize = 5;
/// The most edges of a text.
pub const EDGES: usize = 4096;
/// The numbers of the edge table that are written, and the fewest it may have.
pub const EDGE_TABLE: usize = EDGE * EDGES;
/// Numbers of a row of the thread table: process, count.
pub const THREAD: usize = 2;
/// The most threads of a text.
pub const THREADS: usize = 256;
/// The numbers of the thread table that are written, and the fewest it may have.
pub const THREAD_TABLE: usize = THREAD * THREADS;
/// The most bytes of a text: 1 MiB.
pub const LONGEST: usize = 1 << 20;

/// The reader's answer; the rows stand in the tables.
#[derive(Debug, Clone, Copy, PartialEq, Eq)]
pub enum Answer {
    Listed { edges: u64, threads: u64 },
    Refused { number: u8, place: u64 },
}

/// Lists a text's edges and threads in the lent tables. Takes any text and any
/// tables.
pub fn read(text: &[u8], edges: &mut [u64], threads: &mut [u64]) -> Answer {
    if edges.len() < EDGE_TABLE || threads.len() < THREAD_TABLE {
        let (number, place) = (14, 0);
        return Answer::Refused { number, place };
    }
    // "Zeros behind", and "any but 14 zeroes the lent tables".
    edges[..EDGE_TABLE].fill(0);
    threads[..THREAD_TABLE].fill(0);
    match found(text) {
        Err((place, number)) => Answer::Refused {
            number,
            place: place as u64,
        },
        Ok(listed) => {
            write(&listed.edges, edges);
            write(&listed.threads, threads);
            Answer::Listed {
                edges: listed.edges.len() as u64,
                threads: listed.threads.len() as u64,
            }
        }
    }
}

/// The rows of an accepted text, in reading order.
#[derive(Default)]
struct Listed {
    edges: Vec<[u64; EDGE]>,
    threads: Vec<[u64; THREAD]>,
}

/// A text's rows, or its first fault's place and number.
fn found(text: &[u8]) -> Result<Listed, (usize, u8)> {
    if text.len() > LONGEST {
        return Err((0, faults::TOO_LONG));
    }
    judge::judge(&json::read(text), text)
}

fn write<const SIZE: usize>(rows: &[[u64; SIZE]], table: &mut [u64]) {
    for (row, place) in rows.iter().zip(table.chunks_mut(SIZE)) {
        place.copy_from_slice(row);
    }
}

/// The lines that a program prints for these bytes: the counts, a line for each
/// edge, a line for each thread; or the refusal.
pub fn lines(text: &[u8]) -> String {
    match found(text) {
        Err((place, number)) => format!("refused {number} at {place}\n"),
        Ok(listed) => {
            let (edges, threads) = (listed.edges.len(), listed.threads.len());
            let head = format!("edges {edges} threads {threads}\n");
            let edges: String = listed.edges.iter().map(|row| line(row)).collect();
            let threads: String = listed.threads.iter().map(|row| line(row)).collect();
            head + &edges + &threads
        }
    }
}

fn line(row: &[u64]) -> String {
    let numbers: Vec<String> = row.iter().map(u64::to_string).collect();
    numbers.join(" ") + "\n"
}
