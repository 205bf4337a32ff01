//! What holds of the texts that are made, by the second program's answers.

use second::dcfg::lines;
use std::collections::BTreeMap;
use texts::{batch, text, Fault, Kind};

/// A refusal's number; 0 where the text is accepted.
fn number(text: &[u8]) -> u8 {
    let lines = lines(text);
    let mut words = lines.split_whitespace();
    match words.next() {
        Some("refused") => words
            .next()
            .and_then(|word| word.parse().ok())
            .expect("a number"),
        _ => 0,
    }
}

/// How often each number comes in these many texts of a kind.
fn numbers(kind: Kind, count: u64) -> BTreeMap<u8, u64> {
    let mut numbers = BTreeMap::new();
    for seed in 0..count {
        *numbers.entry(number(&text(kind, seed))).or_default() += 1;
    }
    numbers
}

#[test]
fn the_same_seed_gives_the_same_text() {
    for kind in [Kind::short(), Kind::long()].concat() {
        assert!(text(kind, 3) == text(kind, 3));
    }
}

#[test]
fn good_texts_are_accepted() {
    let (mut edges, mut threads) = (0, 0);
    for seed in 0..3000 {
        let text = text(Kind::Good, seed);
        let lines = lines(&text);
        let words: Vec<&str> = lines.split_whitespace().take(4).collect();
        assert_eq!([words[0], words[2]], ["edges", "threads"], "seed {seed}");
        edges += words[1].parse::<u64>().expect("a count");
        threads += words[3].parse::<u64>().expect("a count");
    }
    assert!(edges > 3000 && threads > 3000, "{edges} {threads}");
}

#[test]
fn each_fault_meets_its_number() {
    for fault in Fault::ALL {
        let count = if fault == Fault::TooManyEdges {
            20
        } else {
            1000
        };
        let mut numbers = numbers(Kind::One(fault), count);
        if fault == Fault::MissingColumn {
            // A process that is skipped may be too deep.
            let deep = numbers.remove(&32).expect("some");
            *numbers.entry(38).or_default() += deep;
        }
        let expected = BTreeMap::from([(fault.number(), count)]);
        assert_eq!(numbers, expected, "{fault:?}");
    }
}

#[test]
fn damage_meets_many() {
    for (kind, least) in [
        (Kind::Changed, &[(0, 50), (31, 300), (34, 10), (38, 10)][..]),
        (Kind::Cut, &[(31, 900)]),
        (Kind::Inserted, &[(0, 50), (31, 300)]),
        (Kind::Doubled, &[(0, 10), (31, 300)]),
        (Kind::NotUtf8, &[(31, 500), (0, 10)]),
        (Kind::AnyJson, &[(0, 500), (32, 20)]),
        (Kind::NearJson, &[(0, 50), (31, 300)]),
        (Kind::NoDcfg, &[(34, 500), (38, 10)]),
        (Kind::Garbage, &[(31, 500)]),
        (
            Kind::Two,
            &[
                (32, 20),
                (33, 50),
                (34, 50),
                (35, 20),
                (36, 20),
                (37, 20),
                (38, 50),
                (39, 5),
            ],
        ),
    ] {
        let numbers = numbers(kind, 1000);
        for (number, count) in least {
            assert!(numbers.get(number) >= Some(count), "{kind:?} {numbers:?}");
        }
    }
}

#[test]
fn full_texts_are_accepted() {
    for seed in 0..20 {
        let lines = lines(&text(Kind::Full, seed));
        assert!(lines.starts_with("edges 4096 threads 256\n"), "seed {seed}");
    }
}

/// "The first in reading order is given": behind the byte that follows the place
/// anything may stand. That byte tells where a number ends.
#[test]
fn what_follows_the_place_changes_nothing() {
    let mut tried = 0;
    for kind in Kind::short() {
        for seed in 0..300 {
            let mut text = text(kind, seed);
            let expected = lines(&text);
            let words: Vec<&str> = expected.split_whitespace().collect();
            if words[0] != "refused" || words[1] >= "38" {
                continue;
            }
            let place: usize = words[3].parse().expect("a place");
            if place == text.len() {
                continue;
            }
            text.truncate(place + 2);
            assert_eq!(lines(&text), expected, "{kind:?} {seed}");
            text.extend(b"]}\xFF{\"a\":0,\"a\":[,");
            assert_eq!(lines(&text), expected, "{kind:?} {seed}");
            tried += 1;
        }
    }
    assert!(tried > 3000, "{tried}");
}

#[test]
fn texts_at_the_limit() {
    let numbers = numbers(Kind::Limit, 20);
    assert!(numbers[&0] > 3 && numbers[&30] > 3, "{numbers:?}");
    assert_eq!(numbers[&0] + numbers[&30], 20);
}

#[test]
fn a_batch_is_read_back() {
    let all: Vec<Vec<u8>> = (0..50).map(|seed| text(Kind::Garbage, seed)).collect();
    let mut stream = Vec::new();
    for text in &all {
        batch::put(&mut stream, text);
    }
    assert_eq!(batch::texts(&stream), all);
    assert_eq!(batch::texts(&stream[..stream.len() - 1]).len(), 49);
}
