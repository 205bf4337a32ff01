//! Logs that come in reads: paper 02, CR 1.

mod calls;
mod far;
mod fed;
mod times;

use crate::bytes::sample_b;
use crate::replay::log::Log;
use fed::{lines, refused, report, told, Fed};
use second::order::Order::{self, Big, Little};
use second::stream::Answer::{self, More};
use std::path::Path;

#[test]
fn sample_b_byte_by_byte() {
    let mut fed = Fed::start(Little);
    for (index, byte) in sample_b().into_iter().enumerate() {
        assert_eq!(fed.feed(&[byte]), More);
        // Entry lies at 80, Exit at 88.
        let rows: &[[u64; 6]] = match index + 1 {
            ..88 => &[],
            88..96 => &[[5, 1, 0, 0, 0, 0]],
            _ => &[[5, 1, 1, 0, 0, 30]],
        };
        assert_eq!(fed.rows(), rows, "with byte {index}");
    }
    assert_eq!(fed.end(), report(1, 1, 6, 0));
    assert_eq!(fed.rows(), [[5, 1, 1, 0, 0, 30]]);
}

#[test]
fn every_end_of_sample_b() {
    for length in 0..=128 {
        let mut fed = Fed::with(&sample_b()[..length]);
        let answer = match length {
            ..32 => refused(1, 0),
            32 => report(0, 0, 0, 0),
            33..128 => refused(4, 0),
            _ => report(1, 1, 6, 0),
        };
        assert_eq!(fed.end(), answer, "behind {length} bytes");
        assert_eq!(fed.is_clear(), length < 128);
    }
}

/// The last answer to a log that comes in two reads, and the table.
fn in_two(log: &[u8], order: Order, cut: usize) -> (Answer, Vec<u64>) {
    let mut fed = Fed::start(order);
    let reads = [&log[..cut], &log[cut..]].map(|read| fed.feed(read));
    let refused = reads.into_iter().find(|answer| *answer != More);
    (refused.unwrap_or_else(|| fed.end()), fed.table)
}

#[test]
fn every_sample_at_every_cut() {
    let folder = Path::new(env!("CARGO_MANIFEST_DIR")).join("../../samples");
    let mut seen = [0; 2];
    for entry in std::fs::read_dir(folder).expect("the samples") {
        let path = entry.expect("a file").path();
        if path.extension().is_none_or(|extension| extension != "fdr") {
            continue;
        }
        let log = std::fs::read(&path).expect("a log");
        let text = std::fs::read_to_string(path.with_extension("txt")).expect("its lines");
        let name = path.to_string_lossy();
        let order = match name.ends_with("-big-endian.fdr") {
            true => Big,
            false => Little,
        };
        let expected = in_two(&log, order, 0);
        assert_eq!(lines(expected.0, &expected.1), text, "{name}");
        for cut in 1..=log.len() {
            assert!(in_two(&log, order, cut) == expected, "{name} cut at {cut}");
        }
        seen[order as usize] += 1;
    }
    assert!(seen[0] > 20 && seen[1] > 4);
}

#[test]
fn calls_carry_over_from_buffer_to_buffer() {
    let log = Log::new(96, 1000)
        .entry(1, 0)
        .entry(2, 0)
        .turn(1007)
        .entry(3, 0)
        .turn(2000)
        .exit(1, 0)
        .close();
    let mut fed = Fed::start(Little);
    let mut rows = Vec::new();
    for read in [&log.bytes[..128], &log.bytes[128..224], &log.bytes[224..]] {
        assert_eq!(fed.feed(read), More);
        rows.push(fed.rows());
    }
    let first = [[1, 1, 0, 0, 0, 0], [2, 1, 0, 0, 0, 0]];
    assert_eq!(rows[0], first);
    assert_eq!(rows[1], [first[0], first[1], [3, 1, 0, 0, 0, 0]]);
    assert_eq!(fed.end(), report(3, 3, 16, 0));
    let rows = [
        [1, 1, 1, 0, 0, 1000],
        [2, 1, 0, 0, 1, 0],
        [3, 1, 0, 0, 1, 0],
    ];
    assert_eq!(fed.rows(), rows);
}

/// The whole log's answers to those that fail tests 1 to 4, but for a length that
/// the end alone can tell.
#[test]
fn logs_that_fail_the_header() {
    let good = sample_b();
    let with = |place: usize, byte: u8| {
        let mut log = good.clone();
        log[place] = byte;
        log
    };
    let end = |log: &[u8]| told(log).1;
    assert_eq!(end(&[]), refused(1, 0));
    assert_eq!(end(&good[..31]), refused(1, 0));
    assert_eq!(end(&with(0, 2)[..31]), refused(1, 0));
    assert_eq!(end(&with(0, 2)), refused(2, 0));
    assert_eq!(end(&with(1, 1)), refused(2, 0));
    assert_eq!(end(&with(2, 0)), refused(3, 0));
    assert_eq!(end(&with(3, 1)), refused(3, 0));
    assert_eq!(end(&with(16, 63)), refused(4, 0));
    assert_eq!(end(&with(16, 63)[..33]), refused(4, 0));
    // One that divides, and one in whose buffer a record would be refused.
    assert_eq!(end(&with(16, 48)), refused(4, 0));
    assert_eq!(end(&with(16, 0)), refused(4, 0));
    // 2 before 3, 3 before 4.
    let mut log = with(0, 0);
    log[2] = 0;
    log[16] = 3;
    assert_eq!(end(&log), refused(2, 0));
    log[0] = 1;
    assert_eq!(end(&log), refused(3, 0));
}

/// These are 4 as whole logs, before any record is looked at.
#[test]
fn logs_that_fail_by_their_length_alone() {
    let good = sample_b();
    assert_eq!(told(&good[..127]), (More, refused(4, 0)));
    let longer = [&good[..], &good[32..33]].concat();
    assert_eq!(told(&longer), (More, refused(4, 0)));
    let mut other = good.clone();
    other[88] = 0x62;
    for length in 96..128 {
        let answer = refused(10, 88);
        assert_eq!(told(&other[..length]), (answer, answer));
    }
    for length in 33..96 {
        assert_eq!(told(&other[..length]), (More, refused(4, 0)));
    }
    // In a buffer of 70 bytes EndOfBuffer runs past the end, which is at 102.
    let mut small = good.clone();
    small[16] = 70;
    assert_eq!(told(&small[..101]), (More, refused(4, 0)));
    let answer = refused(5, 96);
    assert_eq!(told(&small[..103]), (answer, answer));
    assert_eq!(told(&small), (answer, answer));
}

#[test]
fn big_endian_logs_are_streamed_alike() {
    let folder = Path::new(env!("CARGO_MANIFEST_DIR")).join("../../samples");
    let log = std::fs::read(folder.join("b-big-endian.fdr")).expect("a sample");
    let mut fed = Fed::start(Big);
    for (index, byte) in log.iter().enumerate() {
        assert_eq!(fed.feed(&[*byte]), More);
        let rows: &[[u64; 6]] = match index + 1 {
            ..88 => &[],
            88..96 => &[[5, 1, 0, 0, 0, 0]],
            _ => &[[5, 1, 1, 0, 0, 30]],
        };
        assert_eq!(fed.rows(), rows, "with byte {index}");
    }
    assert_eq!(fed.end(), report(1, 1, 6, 0));
    // In the other order the version is 256.
    let (order, answer): (_, Answer) = (Little, refused(2, 0));
    let mut fed = Fed::start(order);
    assert_eq!(fed.feed(&log[..31]), More);
    assert_eq!(fed.feed(&log[31..32]), answer);
    let mut fed = Fed::start(Big);
    assert_eq!(fed.feed(&sample_b()), answer);
}
