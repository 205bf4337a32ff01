//! What holds of the logs that are made for the replay.

use logs::calls::{self, Kind};
use second::order::Order;
use second::replay::{replay, Answer, TABLE};
use second::walk::{self, Outcome};

#[test]
fn sound_kinds_are_well_formed() {
    let wide = [Kind::Wide, Kind::DeepAndWide, Kind::WideNoEntry];
    for kind in Kind::SOUND.iter().copied().chain(wide) {
        for (seed, order) in seeds(200) {
            let outcome = walk::walk(&calls::log(kind, seed, order), order).1;
            assert_eq!(outcome, Outcome::Done, "{kind:?}, seed {seed}, {order:?}");
        }
    }
}

/// Seeds, each with both orders.
fn seeds(seeds: u64) -> impl Iterator<Item = (u64, Order)> {
    (0..seeds).flat_map(|seed| Order::ALL.map(|order| (seed, order)))
}

/// Refusals of some logs of a kind, by number, the fewer of both orders; index
/// 0 counts accepted logs.
fn refusals(kind: Kind, logs: u64) -> [u64; 20] {
    let [little, big] = Order::ALL.map(|order| refusals_of(kind, logs, order));
    std::array::from_fn(|number| little[number].min(big[number]))
}

fn refusals_of(kind: Kind, logs: u64, order: Order) -> [u64; 20] {
    let mut counts = [0; 20];
    let mut table = vec![0; TABLE];
    for seed in 0..logs {
        match replay(&calls::log(kind, seed, order), order, &mut table) {
            Answer::Report { .. } => counts[0] += 1,
            Answer::Refused { number, .. } => counts[number as usize] += 1,
        }
    }
    counts
}

#[test]
fn kinds_meet_what_they_are_made_for() {
    for kind in [Kind::Nested, Kind::Recursive, Kind::Carried, Kind::Events] {
        assert_eq!(refusals(kind, 400)[0], 400, "{kind:?}");
    }
    let on_both_sides = [
        (Kind::Deep, 11),
        (Kind::HighClock, 9),
        (Kind::TickSum, 13),
        (Kind::Wide, 12),
    ];
    for (kind, number) in on_both_sides {
        let counts = refusals(kind, 400);
        assert!(counts[0] > 40, "{kind:?} {counts:?}");
        assert!(counts[number] > 40, "{kind:?} {counts:?}");
    }
    let counts = refusals(Kind::DeepAndWide, 400);
    assert!(counts[0] > 40 && counts[11] > 40 && counts[12] > 10);
    assert!(refusals(Kind::Backward, 400)[0] > 200);
    assert_eq!(refusals(Kind::NoEntry, 400)[10], 400);
    assert_eq!(refusals(Kind::WideNoEntry, 200)[10], 200);
    let counts = refusals(Kind::TwoFaults, 400);
    for number in [5, 6, 7, 9, 10] {
        assert!(counts[number] > 5, "{counts:?}");
    }
    let counts = refusals(Kind::Ungrammatical, 1000);
    for number in [5, 6, 7, 8, 19] {
        assert!(counts[number] > 5, "{counts:?}");
    }
}

#[test]
fn ticks_pass_their_top_at_exits_of_both_kinds() {
    let mut actions = [[0; 4]; 2];
    for (seed, order) in seeds(400) {
        let log = calls::log(Kind::TickSum, seed, order);
        let answer = replay(&log, order, &mut vec![0; TABLE]);
        if let Answer::Refused { number: 13, place } = answer {
            let first = log[place as usize];
            let action = match order {
                Order::Little => first >> 1 & 7,
                Order::Big => first >> 4,
            };
            actions[order as usize][usize::from(action)] += 1;
        }
    }
    for actions in actions {
        assert!(actions[1] > 20 && actions[2] > 20, "{actions:?}");
    }
}

#[test]
fn backward_calls_and_others_are_both_met() {
    let (mut backward, mut others, mut abandoned) = (0, 0, 0);
    for (seed, order) in seeds(200) {
        let mut table = vec![0; TABLE];
        let log = calls::log(Kind::Backward, seed, order);
        replay(&log, order, &mut table);
        for row in table.chunks(6) {
            backward += row[3];
            others += row[2] - row[3];
            abandoned += row[4];
        }
    }
    assert!(backward > 100 && others > 100 && abandoned > 100);
}

#[test]
fn most_logs_are_short() {
    let lengths: Vec<usize> = (0..1000)
        .map(|index| (index, Kind::at(index)))
        .filter(|(_, kind)| *kind != Kind::Limit)
        .map(|(index, kind)| calls::log(kind, index, Order::Big).len())
        .collect();
    let short = lengths.iter().filter(|length| **length <= 8192);
    assert!(short.count() > 800);
    assert!(lengths.iter().all(|length| *length <= (1 << 20) + 32));
}

#[test]
fn lengths_at_the_limit() {
    let lengths = [0, 1, 2, 3, 4].map(|seed| calls::log(Kind::Limit, seed, Order::Big).len());
    let below = [16_773_152, 16_777_152];
    let expected = [16_777_216, 16_777_216, 16_777_217, below[0], below[1]];
    assert_eq!(lengths, expected);
    let (number, place) = (8, 16_773_152 - 4096);
    for order in Order::ALL {
        let outcome = walk::walk(&calls::log(Kind::Limit, 8, order), order).1;
        assert_eq!(outcome, Outcome::Refused { number, place });
    }
}

#[test]
fn logs_of_a_length_have_it() {
    for length in [112, 1000, 65_535, 65_536, 65_537] {
        for (seed, order) in seeds(12) {
            let log = calls::of_length(length, seed, order);
            assert_eq!(log.len(), length);
            assert_eq!(walk::walk(&log, order).1, Outcome::Done);
        }
    }
}
