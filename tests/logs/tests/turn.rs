//! What holds of a log and of the same in the other byte order: paper 02, CR 4.

use logs::calls;
use logs::generate;
use logs::inputs::{self, Kind};
use logs::turn::turned;
use second::order::Order;
use second::record::Record;
use second::replay::{replay, TABLE};
use second::scrub::{hidden, scrub};
use second::walk::{walk, Item};

/// Logs of each kind and order.
const EACH: u64 = 60;

/// Some logs of every kind but the huge ones, in both orders, and the samples.
fn logs() -> impl Iterator<Item = (Vec<u8>, Order)> {
    let kinds = Kind::all().into_iter().filter(|kind| !kind.is_huge());
    let made = kinds.flat_map(|kind| {
        let seeds = if kind.name().ends_with("Large") {
            2
        } else {
            EACH
        };
        let orders = move |seed| Order::ALL.map(|order| (kind.log(seed, order), order));
        (0..seeds).flat_map(orders)
    });
    let samples = inputs::samples().expect("the samples");
    made.chain(samples.into_iter().map(|sample| (sample.log, sample.order)))
}

/// The items without an argument, whose bytes are hidden and so not turned.
fn shown(items: Vec<Item>) -> Vec<Item> {
    let show = |mut item: Item| {
        if let Record::CallArgument { argument } = &mut item.record {
            *argument = 0;
        }
        item
    };
    items.into_iter().map(show).collect()
}

#[test]
fn it_is_walked_replayed_and_scrubbed_alike() {
    for (log, order) in logs() {
        let other = turned(&log, order);
        let (items, outcome) = walk(&log, order);
        let (same_items, same_outcome) = walk(&other, order.other());
        assert_eq!((shown(items), outcome), (shown(same_items), same_outcome));
        assert_eq!(hidden(&log, order), hidden(&other, order.other()));
        let (table, same_table) = (&mut [1; TABLE], &mut [2; TABLE]);
        let answer = replay(&log, order, table);
        assert_eq!(replay(&other, order.other(), same_table), answer);
        assert!(table == same_table);
        let (mut after, mut same_after) = (log.clone(), other);
        let answer = scrub(&mut after, order);
        assert_eq!(scrub(&mut same_after, order.other()), answer);
        assert!(turned(&after, order) == same_after);
    }
}

#[test]
fn turned_twice_it_is_the_log() {
    for (log, order) in logs() {
        let other = turned(&log, order);
        assert!(log.len() < 32 || other != log);
        assert!(turned(&other, order.other()) == log);
    }
}

/// The logs that are made of a seed in either order are the same, but for
/// hidden bytes: an argument's, and a rest that repeats the buffer's own ones.
#[test]
fn it_is_the_log_that_is_made_in_the_other_order() {
    let clean = |mut log: Vec<u8>, order| {
        assert_eq!(scrub(&mut log, order), Ok(()));
        log
    };
    let mut records = 0;
    for seed in 0..400 {
        for order in Order::ALL {
            let calls = calls::Kind::SOUND.iter().copied().map(Kind::Calls);
            for kind in calls.chain([Kind::Logs(generate::Kind::WellFormed)]) {
                let other = turned(&kind.log(seed, order), order);
                let made = kind.log(seed, order.other());
                records += walk(&made, order.other()).0.len();
                assert!(clean(other, order.other()) == clean(made, order.other()));
            }
        }
    }
    assert!(records > 100_000);
}
