//! What holds of the logs that are made for reading.

use logs::generate::{self, Kind};
use logs::inputs;
use second::order::Order;
use second::walk::{self, Outcome};

#[test]
fn the_same_seed_gives_the_same_log() {
    for kind in inputs::Kind::all() {
        for order in Order::ALL {
            assert!(kind.log(3, order) == kind.log(3, order));
        }
    }
}

#[test]
fn well_formed_logs_are_walked_to_their_end() {
    let mut most = 0;
    for seed in 0..2000 {
        let order = Order::ALL[seed as usize % 2];
        let log = generate::log(Kind::WellFormed, seed, order);
        let (items, outcome) = walk::walk(&log, order);
        assert_eq!(outcome, Outcome::Done, "seed {seed}");
        let end = items.last().map_or(32, |item| item.next_place);
        assert_eq!(end, log.len() as u64, "seed {seed}");
        most = most.max(items.len());
    }
    assert!(most > 100);
}

/// Refusals of 400 logs of a kind, by number, the fewer of both orders; index 0
/// counts accepted logs.
fn refusals(kind: Kind) -> [u64; 20] {
    let [little, big] = Order::ALL.map(|order| refusals_of(kind, order));
    std::array::from_fn(|number| little[number].min(big[number]))
}

fn refusals_of(kind: Kind, order: Order) -> [u64; 20] {
    let mut counts = [0; 20];
    for seed in 0..400 {
        match walk::walk(&generate::log(kind, seed, order), order).1 {
            Outcome::Done => counts[0] += 1,
            Outcome::Refused { number, .. } => counts[number as usize] += 1,
        }
    }
    counts
}

#[test]
fn faults_meet_their_refusals() {
    assert_eq!(refusals(Kind::Bare)[0], 400);
    assert_eq!(refusals(Kind::LeadingInBody)[7], 400);
    assert_eq!(refusals(Kind::LooseArgument)[7], 400);
    assert_eq!(refusals(Kind::StrangeAction)[6], 400);
    assert_eq!(refusals(Kind::StrangeKind)[19], 400);
    assert_eq!(refusals(Kind::RecordPastEnd)[5], 400);
    assert_eq!(refusals(Kind::EventPastEnd)[5], 400);
    assert!(refusals(Kind::LeadingFault)[7] > 300);
    assert!(refusals(Kind::OtherThread)[8] > 300);
    assert!(refusals(Kind::NoEndOfBuffer)[5] > 200);
    assert!(refusals(Kind::WrongVersion)[2] > 300);
    assert!(refusals(Kind::WrongType)[3] > 300);
    assert!(refusals(Kind::WrongSize)[4] > 200);
    assert!(refusals(Kind::Short)[1] > 200);
}

#[test]
fn lengths_at_the_limit() {
    for order in Order::ALL {
        let logs = [0, 1, 2].map(|seed| generate::log(Kind::Limit, seed, order));
        let lengths = logs.each_ref().map(Vec::len);
        assert_eq!(lengths, [16_777_216, 16_777_216, 16_777_217]);
        assert_eq!(walk::walk(&logs[0], order).1, Outcome::Done);
        assert_eq!(walk::walk(&logs[1], order).1, Outcome::Done);
    }
}
