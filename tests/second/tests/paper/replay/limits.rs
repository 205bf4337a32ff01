//! The replay's limits and the order of its tests: Paper 01, "The numbered
//! refusals", 9 to 13.

use super::log::{refused, report, run, Log};

#[test]
fn the_clock_ends_at_its_top() {
    let top = u64::MAX;
    let log = |clock, delta| Log::new(200, clock).entry(1, delta).answer();
    assert_eq!(log(top, 0), report(1, 1, 5, 1));
    assert_eq!(log(top, 1), refused(9, 80));
    assert_eq!(log(top - u64::from(u32::MAX), u32::MAX), report(1, 1, 5, 1));
    let past = top - u64::from(u32::MAX) + 1;
    assert_eq!(log(past, u32::MAX), refused(9, 80));
    // An exit as well, and before it finds no open call.
    let exit = Log::new(200, top).entry(1, 0).exit(1, 1);
    assert_eq!(exit.answer(), refused(9, 88));
    let exit = Log::new(200, top).entry(1, 0).exit(2, 1);
    assert_eq!(exit.answer(), refused(9, 88));
}

#[test]
fn an_exit_without_a_call() {
    assert_eq!(Log::new(200, 1).exit(1, 0).answer(), refused(10, 80));
    let log = Log::new(200, 1).entry(1, 0).exit(1, 0).tail_exit(1, 0);
    assert_eq!(log.answer(), refused(10, 96));
    let log = Log::new(200, 1).entry(1, 0).exit(2, 0);
    assert_eq!(log.answer(), refused(10, 88));
}

#[test]
fn open_calls_at_most_256() {
    let full = || Log::new(4000, 1).entries(256, 1, 1);
    let place = full().place();
    assert_eq!(full().answer(), report(1, 1, 260, 256));
    assert_eq!(full().entry(1, 0).answer(), refused(11, place));
    assert_eq!(full().entry_args(2, 0).answer(), refused(11, place));
    let again = full().exit(1, 0).entry(1, 0);
    assert_eq!(again.answer(), report(1, 1, 262, 256));
    let high = full().wrap(u64::MAX).entry(1, 1);
    assert_eq!(high.answer(), refused(9, place + 16));
}

/// A log that has entered ids 1 to 1,023, each abandoned, and id 0 below them,
/// five times closed. No call is open.
fn all_ids() -> Log {
    let mut log = Log::new(20_000, 1);
    for first in [1, 256, 511, 766, 1021] {
        let ids = 255.min(1024 - first);
        log = log.entry(0, 0).entries(1, first, ids).exit(0, 0);
    }
    log
}

#[test]
fn function_ids_at_most_1024() {
    let place = all_ids().place();
    let report_of = |log: Log| run(&log.close().bytes);
    let (answer, rows) = report_of(all_ids());
    assert_eq!(answer, report(1024, 1, 4 + 10 + 1023, 0));
    assert_eq!(rows[0], [0, 5, 5, 0, 0, 0]);
    assert_eq!(rows[1023], [1023, 1, 0, 0, 1, 0]);
    assert_eq!(all_ids().entry(1024, 0).answer(), refused(12, place));
    let known = all_ids().entry(1023, 0).tail_exit(1023, 6);
    assert_eq!(report_of(known).1[1023], [1023, 2, 1, 0, 1, 6]);
    // An exit enters no id.
    assert_eq!(all_ids().exit(1024, 0).answer(), refused(10, place));
}

#[test]
fn depth_comes_before_ids() {
    let place = all_ids().place();
    let full = all_ids().entries(256, 5, 1);
    assert_eq!(full.entry(2000, 0).answer(), refused(11, place + 256 * 8));
    let one_less = all_ids().entries(255, 5, 1);
    let answer = one_less.entry(2000, 0).answer();
    assert_eq!(answer, refused(12, place + 255 * 8));
    let high = all_ids().wrap(u64::MAX).entry(2000, 1);
    assert_eq!(high.answer(), refused(9, place + 16));
}

#[test]
fn ticks_end_at_their_top() {
    // Calls of id 1 with 2^64 - 1 ticks in all, and one call more.
    let sum = |last: u64| {
        Log::new(400, 0)
            .entry(1, 0)
            .wrap(u64::MAX - 5)
            .exit(1, 0)
            .wrap(0)
            .entry(1, 0)
            .exit(1, last as u32)
    };
    assert_eq!(sum(5).rows(), [[1, 2, 2, 0, 0, u64::MAX]]);
    let place = sum(5).place();
    assert_eq!(sum(6).answer(), refused(13, place - 8));
    // After that, equal and backward clocks pass, and other ids.
    let more = sum(5).entry(1, 0).exit(1, 0).entry(1, 9).wrap(3).exit(1, 0);
    assert_eq!(more.rows(), [[1, 4, 4, 1, 0, u64::MAX]]);
    let other = sum(5).entry(2, 0).exit(2, 1);
    assert_eq!(other.rows()[1], [2, 1, 1, 0, 0, 1]);
    // A call that is not open is 10, whatever its row's ticks.
    assert_eq!(sum(5).exit(1, 1).answer(), refused(10, place));
}

#[test]
fn ticks_end_at_their_top_in_a_tail_exit_too() {
    // Two calls of id 2 in one of id 1. The inner has 2^64 - 6 ticks, which is
    // all there is room for but 5.
    let two = |outer: u64| {
        Log::new(400, u64::MAX)
            .entry(1, 0)
            .wrap(u64::MAX - 5 - outer)
            .entry(2, 0)
            .wrap(0)
            .entry(2, 0)
            .wrap(u64::MAX - 5)
            .tail_exit(1, 0)
    };
    let rows = [[1, 1, 1, 1, 0, 0], [2, 2, 2, 0, 0, u64::MAX]];
    assert_eq!(two(5).rows(), rows);
    let place = two(6).place() - 8;
    assert_eq!(two(6).answer(), refused(13, place));
    // 10 comes first, and a call below doesn't count.
    let below = |id| {
        Log::new(400, 0)
            .entry(1, 0)
            .wrap(u64::MAX)
            .exit(1, 0)
            .wrap(0)
            .entry(1, 0)
            .entry(2, 9)
            .tail_exit(id, 9)
    };
    assert_eq!(
        below(2).rows(),
        [[1, 2, 1, 0, 0, u64::MAX], [2, 1, 1, 0, 0, 9]]
    );
    assert_eq!(below(1).answer(), refused(13, below(1).place() - 8));
    assert_eq!(below(3).answer(), refused(10, below(3).place() - 8));
}

#[test]
fn faults_of_the_walk_come_before_the_replays() {
    // The clock stands at its top when the second buffer starts with an entry.
    let log = Log::new(96, u64::MAX).entry(1, 0).close();
    let place = log.place();
    let mut log = log.entry(1, 1).metadata(4, &[]).metadata(2, &[]);
    log.bytes.resize(32 + 2 * 96, 0);
    assert_eq!(run(&log.bytes).0, refused(7, place));
    // An unknown action with that clock is 6.
    let log = Log::new(96, u64::MAX).function(4, 1, 1);
    assert_eq!(log.answer(), refused(6, 80));
    // A record that runs past the buffer's end is 5.
    let mut log = Log::new(70, u64::MAX).wrap(u64::MAX).entry(1, 1);
    log.bytes.truncate(32 + 70);
    assert_eq!(run(&log.bytes).0, refused(5, 96));
    // No byte left: the place is the buffer's end.
    let mut log = Log::new(64, u64::MAX).entry(1, 0).entry(1, 0);
    log.bytes.truncate(32 + 64);
    assert_eq!(run(&log.bytes).0, refused(5, 96));
}

#[test]
fn the_first_fault_decides() {
    let mut log = Log::new(96, 1).exit(1, 0).turn(1).close().bytes;
    log[32 + 96 + 1] = 8;
    assert_eq!(run(&log).0, refused(10, 80));
    let mut log = Log::new(96, 1).entry(1, 0).turn(1).exit(2, 0).close().bytes;
    assert_eq!(run(&log).0, refused(10, 32 + 96 + 48));
    log[32 + 96 + 1] = 8;
    assert_eq!(run(&log).0, refused(8, 32 + 96));
}
