//! What holds of the tables and the walks that are made.

use second::transitions::walk;
use tables::{case, Case, Kind};

/// The number of its refusal, or 0.
fn number(case: &Case) -> usize {
    let mut list = vec![0; case.length];
    let answer = walk(&case.table, case.start, &case.bits, case.wanted, &mut list);
    answer.err().map_or(0, usize::from)
}

/// The answers to 1,000 cases of a kind, by number.
fn answers(kind: Kind) -> [u64; 45] {
    let mut counts = [0; 45];
    for seed in 0..1000 {
        counts[number(&case(kind, seed))] += 1;
    }
    counts
}

#[test]
fn the_same_seed_gives_the_same_case() {
    for kind in Kind::ALL {
        assert_eq!(case(kind, 3), case(kind, 3));
        assert_ne!(case(kind, 3), case(kind, 4));
    }
}

#[test]
fn kinds_meet_what_they_are_made_for() {
    let each = [
        (Kind::Sound, 0),
        (Kind::Deep, 0),
        (Kind::Single, 0),
        (Kind::LongLists, 0),
        (Kind::Wide, 0),
        (Kind::AnyEdges, 0),
        (Kind::ShortList, 14),
        (Kind::TooLong, 40),
        (Kind::Character, 40),
        (Kind::EmptyList, 40),
        (Kind::Clash, 40),
        (Kind::Length, 40),
        (Kind::NoRow, 41),
        (Kind::LeftOver, 44),
    ];
    for (kind, number) in each {
        assert_eq!(answers(kind)[number], 1000, "{kind:?}");
    }
    // No bits to take away, and no list of two on the way, are as they were.
    for (kind, number) in [(Kind::BitsOut, 42), (Kind::Past, 43)] {
        let counts = answers(kind);
        assert_eq!(counts[0] + counts[number], 1000, "{kind:?}");
        assert!(counts[number] > 800, "{kind:?}");
    }
}

#[test]
fn other_kinds_meet_several() {
    let some: [(Kind, &[usize]); 6] = [
        (Kind::NothingWanted, &[0, 44]),
        (Kind::Cut, &[0, 40, 41, 42]),
        (Kind::Changed, &[0, 40, 41, 42]),
        (Kind::WrongBits, &[0, 41, 42, 43, 44]),
        (Kind::Faults, &[14, 40, 41, 42, 43, 44]),
        (Kind::Garbage, &[0, 14, 40, 41, 44]),
    ];
    for (kind, numbers) in some {
        let counts = answers(kind);
        for number in numbers {
            assert!(counts[*number] > 0, "{kind:?} {number} {counts:?}");
        }
    }
}

#[test]
fn codes_have_up_to_32_characters() {
    let lengths = (0..200).map(|seed| case(Kind::Deep, seed).table);
    assert!(lengths.into_iter().any(|table| table[1] == 32));
    let wide = (0..200).map(|seed| case(Kind::Wide, seed).table.len());
    assert!(wide.max() > Some(3000));
}
