//! The replay: the samples of Paper 01, "Sample logs", with the lines they must
//! print, and what "Replay" says of rows, calls and clocks.

mod limits;
pub mod log;

use log::{refused, report, run, Log, OLD};
use second::order::Order::{Big, Little};
use second::replay::{lines, replay, TABLE};
use std::path::Path;

#[test]
fn every_sample_prints_its_lines() {
    let folder = Path::new(env!("CARGO_MANIFEST_DIR")).join("../../samples");
    let mut seen = [0; 2];
    for entry in std::fs::read_dir(folder).expect("the samples") {
        let path = entry.expect("a file").path();
        if path.extension().is_none_or(|extension| extension != "fdr") {
            continue;
        }
        let log = std::fs::read(&path).expect("a log");
        let text = std::fs::read_to_string(path.with_extension("txt")).expect("its lines");
        // A sample's name tells the order that it is read in.
        let name = path.to_string_lossy();
        let order = match name.ends_with("-big-endian.fdr") {
            true => Big,
            false => Little,
        };
        assert_eq!(lines(&log, order), text, "{name}");
        seen[order as usize] += 1;
    }
    assert!(seen[0] > 20 && seen[1] > 4);
}

fn sample_b() -> Log {
    Log::new(96, 1000).entry(5, 10).exit(5, 30)
}

#[test]
fn sample_b_has_one_row() {
    let log = sample_b().close().bytes;
    assert_eq!(log.len(), 128);
    assert_eq!(run(&log), (report(1, 1, 6, 0), vec![[5, 1, 1, 0, 0, 30]]));
    let text = "rows 1 buffers 1 records 6 open 0\n5 1 1 0 0 30\n";
    assert_eq!(lines(&log, Little), text);
}

#[test]
fn a_short_table_is_refused_first_and_left_alone() {
    let good = sample_b().close().bytes;
    for log in [&good[..], &good[..31], &[]] {
        for length in [0, 1, TABLE - 1] {
            let mut table = vec![OLD; length];
            assert_eq!(replay(log, Little, &mut table), refused(14, 0));
            assert!(table.iter().all(|number| *number == OLD));
        }
    }
    assert_eq!(
        replay(&good, Little, &mut vec![OLD; TABLE]),
        report(1, 1, 6, 0)
    );
}

#[test]
fn header_refusals_have_place_0() {
    let mut log = sample_b().close().bytes;
    assert_eq!(run(&log[..31]).0, refused(1, 0));
    assert_eq!(run(&log[..127]).0, refused(4, 0));
    log[2] = 2;
    assert_eq!(run(&log).0, refused(3, 0));
    log[0] = 2;
    assert_eq!(run(&log).0, refused(2, 0));
    assert_eq!(run(&log[..32]).0, refused(2, 0));
}

#[test]
fn lines_of_odd_inputs() {
    assert_eq!(lines(&[], Little), "refused 1 at 0\n");
    assert_eq!(lines(&[1; 65_536], Little), "refused 2 at 0\n");
    assert_eq!(lines(&[1; 65_537], Little), "too long\n");
    let longest = Log::new(65_504, 1).entry(1, 0).close().bytes;
    assert_eq!(longest.len(), 65_536);
    let text = "rows 1 buffers 1 records 5 open 1\n1 1 0 0 0 0\n";
    assert_eq!(lines(&longest, Little), text);
    let longer = Log::new(65_505, 1).entry(1, 0).close().bytes;
    assert_eq!(longer.len(), 65_537);
    assert_eq!(lines(&longer, Little), "too long\n");
}

#[test]
fn every_record_counts_once() {
    let log = Log::new(200, 1)
        .entry_args(1, 0)
        .argument()
        .argument()
        .event()
        .wrap(5)
        .cpu(6)
        .turn(1);
    assert_eq!(log.answer(), report(1, 2, 10 + 4, 1));
}

#[test]
fn rows_stand_in_the_order_of_first_entry() {
    let log = Log::new(200, 1)
        .entry(9, 0)
        .entry(0, 1)
        .exit(0, 0)
        .entry(268_435_455, 0)
        .tail_exit(268_435_455, 4)
        .entry(0, 0)
        .exit(0, 7)
        .exit(9, 0);
    let rows = vec![
        [9, 1, 1, 0, 0, 12],
        [0, 2, 2, 0, 0, 7],
        [268_435_455, 1, 1, 0, 0, 4],
    ];
    assert_eq!(log.rows(), rows);
}

#[test]
fn an_exit_closes_the_nearest_open_call() {
    let log = Log::new(200, 1000)
        .entry(5, 0)
        .entry(5, 10)
        .exit(5, 5)
        .exit(5, 5);
    assert_eq!(log.rows(), [[5, 2, 2, 0, 0, 25]]);
    let log = Log::new(200, 1000).entry(5, 0).entry(5, 10).exit(5, 5);
    assert_eq!(log.rows(), [[5, 2, 1, 0, 0, 5]]);
}

#[test]
fn calls_above_are_abandoned() {
    let log = Log::new(200, 1000)
        .entry(1, 0)
        .entry(2, 1)
        .entry(3, 1)
        .entry(2, 1)
        .exit(1, 1)
        .entry(3, 1);
    let rows = [[1, 1, 1, 0, 0, 4], [2, 2, 0, 0, 2, 0], [3, 2, 0, 0, 1, 0]];
    assert_eq!(log.rows(), rows);
    // An abandoned call is no longer open.
    let log = Log::new(200, 1).entry(1, 0).entry(2, 0).exit(1, 0);
    let place = log.place();
    assert_eq!(log.exit(2, 0).answer(), refused(10, place));
}

#[test]
fn a_tail_exit_closes_the_calls_above() {
    // At 1004: entered at 1000, 1001 and 1003 (twice the same id), and 1002.
    let log = Log::new(200, 1000)
        .entry(1, 0)
        .entry(2, 1)
        .entry(3, 1)
        .entry(2, 1)
        .tail_exit(1, 1)
        .entry(3, 1);
    let rows = [[1, 1, 1, 0, 0, 4], [2, 2, 2, 0, 0, 4], [3, 2, 1, 0, 0, 2]];
    let (answer, seen) = run(&log.close().bytes);
    assert_eq!((answer, &seen[..]), (report(3, 1, 10, 1), &rows[..]));
    // A call that it has closed is no longer open; one below it is, whatever
    // its id.
    let log = Log::new(200, 1).entry(1, 0).entry(2, 0).tail_exit(1, 0);
    let place = log.place();
    assert_eq!(log.tail_exit(2, 0).answer(), refused(10, place));
    let log = || Log::new(200, 1).entry(1, 0).entry(1, 3).tail_exit(1, 4);
    assert_eq!(log().rows(), [[1, 2, 1, 0, 0, 4]]);
    assert_eq!(log().exit(1, 0).rows(), [[1, 2, 2, 0, 0, 11]]);
    // Nothing is closed where no call of its id is open.
    let log = Log::new(200, 1).entry(1, 0).entry(2, 0);
    let place = log.place();
    assert_eq!(log.tail_exit(3, 0).answer(), refused(10, place));
}

#[test]
fn a_tail_exit_does_what_exits_would() {
    let open = || {
        Log::new(300, 70)
            .entry(1, 3)
            .entry(2, 5)
            .cpu(60)
            .entry(3, 0)
            .entry(2, 9)
    };
    let exits = open().exit(2, 8).exit(3, 0).exit(2, 0).exit(1, 0);
    // 2 and 1, entered at 78 and 73, are closed at 77.
    let rows = [[1, 1, 1, 0, 0, 4], [2, 2, 2, 1, 0, 8], [3, 1, 1, 0, 0, 17]];
    assert_eq!(open().tail_exit(1, 8).rows(), rows);
    assert_eq!(exits.rows(), rows);
}

#[test]
fn the_stack_carries_over() {
    let log = Log::new(96, 1000)
        .entry(1, 0)
        .entry(2, 0)
        .turn(1007)
        .entry(3, 0)
        .turn(2000)
        .turn(3000)
        .exit(1, 0);
    let (answer, rows) = run(&log.close().bytes);
    assert_eq!(answer, report(3, 4, 20, 0));
    let expected = [
        [1, 1, 1, 0, 0, 2000],
        [2, 1, 0, 0, 1, 0],
        [3, 1, 0, 0, 1, 0],
    ];
    assert_eq!(rows, expected);
}

#[test]
fn records_move_the_clock_as_told() {
    // The entry's own delta comes before the call, the exit's belongs to it;
    // the event doesn't count.
    let log = Log::new(200, 1000).entry(1, 500).event().exit(1, 3);
    assert_eq!(log.rows(), [[1, 1, 1, 0, 0, 3]]);
    let log = Log::new(200, 1000).entry(1, 0).wrap(1500).exit(1, 2);
    assert_eq!(log.rows(), [[1, 1, 1, 0, 0, 502]]);
    let log = Log::new(200, 1000).entry(1, 0).cpu(1700).exit(1, 2);
    assert_eq!(log.rows(), [[1, 1, 1, 0, 0, 702]]);
    // An abandoned call's entry moves the clock as well.
    let log = Log::new(200, 0).entry(1, 0).entry(2, 40).exit(1, 2);
    assert_eq!(log.rows()[0], [1, 1, 1, 0, 0, 42]);
}

#[test]
fn backward_calls_add_no_ticks() {
    let at = |clock| Log::new(200, 1000).entry(1, 0).cpu(clock).exit(1, 0).rows();
    assert_eq!(at(999), [[1, 1, 1, 1, 0, 0]]);
    assert_eq!(at(1000), [[1, 1, 1, 0, 0, 0]]);
    assert_eq!(at(1001), [[1, 1, 1, 0, 0, 1]]);
    assert_eq!(at(0), [[1, 1, 1, 1, 0, 0]]);
    // The exit's own delta comes first.
    let log = Log::new(200, 1000).entry(1, 0).wrap(999).exit(1, 1);
    assert_eq!(log.rows(), [[1, 1, 1, 0, 0, 0]]);
    // A tail exit looks at each call's own entry.
    let log = Log::new(200, 1000)
        .entry(1, 0)
        .cpu(500)
        .entry(2, 0)
        .cpu(900);
    let log = log.entry(2, 0).tail_exit(1, 99);
    assert_eq!(log.rows(), [[1, 1, 1, 1, 0, 0], [2, 2, 2, 0, 0, 598]]);
}
