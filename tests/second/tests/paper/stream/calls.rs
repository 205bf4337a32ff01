//! The calls themselves: empty reads, short tables, and calls behind the end or
//! a refusal.

use super::fed::{refused, report, Fed};
use crate::bytes::sample_b;
use crate::replay::log::OLD;
use second::order::Order::Little;
use second::replay::TABLE;
use second::stream::Answer::More;

/// Tables that are too short.
const SHORT: [usize; 3] = [0, 1, TABLE - 1];

#[test]
fn an_empty_read_clears_the_table_and_no_more() {
    let mut fed = Fed::start(Little);
    assert_eq!(fed.feed(&[]), More);
    assert!(fed.is_clear());
    for byte in sample_b() {
        assert_eq!(fed.feed(&[byte]), More);
        let before = fed.table.clone();
        assert_eq!(fed.feed(&[]), More);
        assert_eq!(fed.table, before);
    }
    assert_eq!(fed.end(), report(1, 1, 6, 0));
}

#[test]
fn the_end_of_no_reads() {
    let mut fed = Fed::start(Little);
    assert_eq!(fed.end(), refused(1, 0));
    assert!(fed.is_clear());
}

#[test]
fn a_short_table_changes_nothing() {
    let log = sample_b();
    for cut in [0, 31, 32, 33, 84, 88, 96, 128] {
        let mut fed = Fed::with(&log[..cut]);
        for length in SHORT {
            let mut short = vec![OLD; length];
            assert_eq!(fed.stream.feed(&log[cut..], &mut short), refused(14, 0));
            assert_eq!(fed.stream.feed(&[], &mut short), refused(14, 0));
            assert_eq!(fed.stream.end(&mut short), refused(14, 0));
            assert!(short.iter().all(|number| *number == OLD));
        }
        // The same read again.
        assert_eq!(fed.feed(&log[cut..]), More);
        assert_eq!(fed.end(), report(1, 1, 6, 0));
        assert_eq!(fed.rows(), [[5, 1, 1, 0, 0, 30]]);
    }
}

#[test]
fn a_short_table_comes_before_the_bytes() {
    let mut fed = Fed::with(&[2; 31]);
    assert_eq!(fed.stream.feed(&[2], &mut [OLD; 5]), refused(14, 0));
    assert_eq!(fed.feed(&[2]), refused(2, 0));
}

/// Calls that must all answer so, whatever they are lent, and write nothing.
fn stays(fed: &mut Fed, answer: second::stream::Answer) {
    let log = sample_b();
    for read in [&[][..], &log[..1], &log[..], &[0xFF; 100]] {
        for length in [0, 1, TABLE - 1, TABLE, TABLE + 9] {
            let mut table = vec![OLD; length];
            assert_eq!(fed.stream.feed(read, &mut table), answer);
            assert_eq!(fed.stream.end(&mut table), answer);
            assert!(table.iter().all(|number| *number == OLD));
        }
    }
}

#[test]
fn a_refusal_stays() {
    let mut log = sample_b();
    log[88] = 0x62;
    let mut fed = Fed::with(&log[..90]);
    assert_eq!(fed.rows(), [[5, 1, 0, 0, 0, 0]]);
    assert_eq!(fed.feed(&log[90..]), refused(10, 88));
    assert!(fed.is_clear());
    stays(&mut fed, refused(10, 88));
    // Those of the end.
    for (length, number) in [(0, 1), (31, 1), (33, 4), (90, 4)] {
        let mut fed = Fed::with(&log[..length]);
        assert_eq!(fed.end(), refused(number, 0));
        assert!(fed.is_clear());
        stays(&mut fed, refused(number, 0));
    }
}

#[test]
fn the_end_stays() {
    let mut fed = Fed::with(&sample_b());
    assert_eq!(fed.end(), report(1, 1, 6, 0));
    stays(&mut fed, report(1, 1, 6, 0));
    let mut bare = Fed::with(&sample_b()[..32]);
    assert_eq!(bare.end(), report(0, 0, 0, 0));
    stays(&mut bare, report(0, 0, 0, 0));
}
