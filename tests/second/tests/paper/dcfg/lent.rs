//! The lent tables: 14, the zeros behind the rows, and what is untouched.

use super::*;
use second::dcfg::{read, Answer};

const MARK: u64 = 0xAAAA_AAAA_AAAA_AAAA;

/// The answer, and tables of these lengths that held marks.
fn tables(text: &str, edges: usize, threads: usize) -> (Answer, Vec<u64>, Vec<u64>) {
    let (mut edges, mut threads) = (vec![MARK; edges], vec![MARK; threads]);
    let answer = read(text.as_bytes(), &mut edges, &mut threads);
    (answer, edges, threads)
}

fn sample() -> String {
    data(&[&format!(
        r#"{{"INSTR_COUNT":7,"INSTR_COUNT_PER_THREAD":[3,4],"EDGES":[{HEADER},[9,8,7,6,[]]]}}"#
    )])
}

#[test]
fn fourteen_before_all() {
    let fourteen = Answer::Refused {
        number: 14,
        place: 0,
    };
    for (lengths, text) in [
        ((20_479, 512), sample()),
        ((20_480, 511), sample()),
        ((0, 0), sample()),
        ((0, 600), "x".to_string()),
        ((20_479, 512), " ".repeat(1_048_577)),
    ] {
        let (answer, edges, threads) = tables(&text, lengths.0, lengths.1);
        assert_eq!(answer, fourteen);
        assert!(edges.iter().chain(&threads).all(|number| *number == MARK));
    }
}

#[test]
fn rows_then_zeros() {
    for more in [0, 1, 1000] {
        let (answer, edges, threads) = tables(&sample(), 20_480 + more, 512 + more);
        assert_eq!(
            answer,
            Answer::Listed {
                edges: 1,
                threads: 2
            }
        );
        assert_eq!(edges[..5], [0, 9, 8, 7, 6]);
        assert!(edges[5..20_480].iter().all(|number| *number == 0));
        assert_eq!(threads[..4], [0, 3, 0, 4]);
        assert!(threads[4..512].iter().all(|number| *number == 0));
        let past = edges[20_480..].iter().chain(&threads[512..]);
        assert!(past.clone().count() == 2 * more && past.clone().all(|number| *number == MARK));
    }
}

/// "Any but 14 zeroes the lent tables."
#[test]
fn zeros_after_a_refusal() {
    let late = sample() + "x";
    for (text, number, place) in [
        (" ".repeat(1_048_577), 30, 0),
        (late.clone(), 31, late.len() as u64 - 1),
        ("{}".to_string(), 38, 2),
    ] {
        let (answer, edges, threads) = tables(&text, 20_481, 513);
        assert_eq!(answer, Answer::Refused { number, place });
        assert!(edges[..20_480]
            .iter()
            .chain(&threads[..512])
            .all(|number| *number == 0));
        assert_eq!((edges[20_480], threads[512]), (MARK, MARK));
    }
}
