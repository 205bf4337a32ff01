//! Offsets up to 2^64 - 1, and 20.

use super::fed::{refused, report, Fed};
use crate::bytes::{event_marker, header, leading, END, ENTRY, EXIT};
use second::stream::Answer::More;

const LAST: u64 = u64::MAX;

/// A first buffer of this size that ends with a skipped rest, of which so many
/// bytes are still to come; one call is open.
fn rest_of(size: u64, to_come: u64) -> Fed {
    let mut fed = Fed::with(&[&header(size)[..], &leading(7), &ENTRY, &END].concat());
    fed.stream.pass(size - 72 - to_come);
    fed
}

#[test]
fn a_log_may_be_as_long_as_the_offset_counts() {
    // Its one buffer ends at 2^64 - 1.
    let mut fed = rest_of(LAST - 32, 3);
    assert_eq!(fed.clone().feed(&[0; 4]), refused(20, LAST - 3));
    assert_eq!(fed.clone().end(), refused(4, 0));
    assert_eq!(fed.feed(&[0; 2]), More);
    assert_eq!(fed.clone().feed(&[0; 2]), refused(20, LAST - 1));
    assert_eq!(fed.feed(&[0]), More);
    assert_eq!(fed.clone().feed(&[0]), refused(20, LAST));
    assert_eq!(fed.feed(&[]), More);
    assert_eq!(fed.rows(), [[5, 1, 0, 0, 0, 0]]);
    assert_eq!(fed.end(), report(1, 1, 5, 1));
}

#[test]
fn twenty_clears_the_table_and_stays() {
    let mut fed = rest_of(LAST - 32, 3);
    assert_eq!(fed.stream.feed(&[0; 4], &mut [9; 5]), refused(14, 0));
    assert_eq!(fed.feed(&[0; 4]), refused(20, LAST - 3));
    assert!(fed.is_clear());
    assert_eq!(fed.feed(&[]), refused(20, LAST - 3));
    assert_eq!(fed.end(), refused(20, LAST - 3));
    assert_eq!(fed.stream.feed(&[0; 4], &mut [9; 5]), refused(20, LAST - 3));
}

#[test]
fn a_buffer_past_the_last_offset_never_ends() {
    // Its end would lie at 2^64 - 1 + 32.
    let mut fed = rest_of(LAST, 40);
    assert_eq!(fed.feed(&[0; 8]), More);
    assert_eq!(fed.clone().feed(&[0]), refused(20, LAST));
    assert_eq!(fed.end(), refused(4, 0));
    // One byte past it.
    let mut fed = rest_of(LAST - 31, 1);
    assert_eq!(fed.clone().feed(&[0]), refused(20, LAST));
    assert_eq!(fed.feed(&[]), More);
    assert_eq!(fed.end(), refused(4, 0));
}

/// A stream whose second buffer starts 100 bytes before 2^64 - 1.
fn second_buffer() -> Fed {
    let mut fed = rest_of(LAST - 132, 1);
    assert_eq!(fed.feed(&[0]), More);
    fed
}

const START: u64 = LAST - 100;

#[test]
fn records_are_judged_as_usual_in_such_a_buffer() {
    assert_eq!(second_buffer().end(), report(1, 1, 5, 1));
    let mut fed = second_buffer();
    assert_eq!(fed.feed(&leading(7)), More);
    assert_eq!(fed.feed(&EXIT), More);
    // Entered at 1010, closed at 1030.
    assert_eq!(fed.rows(), [[5, 1, 1, 0, 0, 20]]);
    assert_eq!(fed.feed(&EXIT[..7]), More);
    assert_eq!(fed.clone().end(), refused(4, 0));
    assert_eq!(fed.feed(&EXIT[7..]), refused(10, START + 56));
    // An event of all lengths fits.
    let mut fed = second_buffer();
    let marker = event_marker(u32::MAX);
    assert_eq!(fed.feed(&[leading(7), marker].concat()), More);
    assert_eq!(fed.feed(&[0xFF; 36]), More);
    assert_eq!(fed.clone().end(), refused(4, 0));
    assert_eq!(fed.feed(&[0xFF]), refused(20, LAST));
    // To the last byte there is.
    let mut fed = second_buffer();
    assert_eq!(
        fed.feed(&[&leading(7)[..], &EXIT, &[ENTRY; 4].concat()].concat()),
        More
    );
    assert_eq!(fed.feed(&[0xFF; 12]), More);
    assert_eq!(fed.feed(&[0xFF]), refused(20, LAST));
}

#[test]
fn twenty_comes_before_the_bytes() {
    let other = leading(8);
    assert_eq!(second_buffer().feed(&other), refused(8, START));
    let long = [&other[..], &[0; 53]].concat();
    assert_eq!(second_buffer().feed(&long[..100]), refused(8, START));
    assert_eq!(second_buffer().feed(&long), refused(20, START));
}
