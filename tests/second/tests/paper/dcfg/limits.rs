//! "Text over 1 MiB", "a 4,097th edge or 257th thread in all".

use super::*;

/// Rows of edges with these ids.
fn edge_rows(ids: std::ops::RangeInclusive<u32>) -> String {
    let rows: Vec<String> = ids.map(|id| format!("[{id},1,1,1,[]]")).collect();
    rows.join(",")
}

#[test]
fn one_mebibyte() {
    let text = object(&[VERSION, TYPES, NODES, NO_PROCESSES]);
    let padded = |length: usize| format!("{text}{}", " ".repeat(length - text.len()));
    accepted(padded(1_048_576));
    refused(30, format!("^{}", padded(1_048_577)));
    refused(30, format!("^{}", " ".repeat(2_000_000)));
    refused(30, format!("^{}", "x".repeat(1_048_577)));
    refused(31, format!("^{}", "x".repeat(1_048_576)));
    refused(31, format!("{}^", " ".repeat(1_048_576)));
    // Bytes are counted, not characters.
    refused(30, format!("^\"{}\"", "\u{e4}".repeat(524_288)));
    refused(34, format!("\"{}^\"", "\u{e4}".repeat(524_287)));
}

#[test]
fn edges_in_all() {
    let all = edge_rows(1..=4096);
    let mut expected = vec!["edges 4096 threads 0".to_string()];
    expected.extend((1..=4096).map(|id| format!("0 {id} 1 1 1")));
    let expected: Vec<&str> = expected.iter().map(String::as_str).collect();
    listed(rows(&all), &expected);
    refused(37, rows(&format!("{all},[4097,1,1,1,[]^]")));
    refused(37, rows(&format!("{all},[4097,1,1,1,[]^],[4098,1,1,1,[]]")));
    // A row that lacks columns counts.
    refused(37, rows(&format!("{all},[^]")));
    // What is wrong inside it comes first, as does a row that is no array.
    refused(34, rows(&format!("{all},[4097,nul^l,1,1,[]]")));
    refused(35, rows(&format!("{all},[4097,^0,1,1,[]]")));
    refused(36, rows(&format!("{all},[^1,1,1,1,[]]")));
    refused(
        33,
        rows(&format!(r#"{all},[4097,1,1,1,[],{{"a":1,"a^":1}}]"#)),
    );
    refused(31, rows(&format!("{all},[4097,^,1,1,[]]")));
    refused(34, rows(&format!("{all},nul^l")));
    refused(34, rows(&format!("{all},{{^}}")));
}

#[test]
fn edges_of_all_processes() {
    let half = |rows: String| of_edges(&format!("[{HEADER},{rows}]"));
    let first = half(edge_rows(1..=2000));
    let second = half(edge_rows(1..=2096));
    let last = half(edge_rows(1..=2096) + ",[5000,1,1,1,[]^]");
    let text = data(&[&first, &second]);
    assert!(second::dcfg::lines(text.as_bytes()).starts_with("edges 4096 threads 0\n0 1 1 1 1\n"));
    refused(37, data(&[&first, &last]));
    refused(
        37,
        data(&[&first, &second, &half("[1,1,1,1,[]^]".to_string())]),
    );
    // A sum that is wrong is told at the end alone.
    let unequal = first.replace(r#""INSTR_COUNT":0"#, r#""INSTR_COUNT":1"#);
    refused(37, data(&[&unequal, &last]));
    refused(39, data(&[&unequal, &second]) + "^");
}

#[test]
fn threads_in_all() {
    let zeros = |count: usize| vec!["0"; count].join(",");
    let all = zeros(256);
    let mut expected = vec!["edges 0 threads 256"];
    expected.extend(["0 0"; 256]);
    listed(counts("0", &format!("[{all}]")), &expected);
    refused(37, counts("0", &format!("[{all},^0]")));
    refused(37, counts("0", &format!("[{all},1^0,0]")));
    refused(37, counts("0", &format!(r#"[{all},"0x0^"]"#)));
    // 34 is named before 37.
    refused(34, counts("0", &format!("[{all},nul^l]")));
    refused(34, counts("0", &format!("[{all},[^]]")));
    refused(34, counts("0", &format!("[{all},-^1]")));
    refused(31, counts("0", &format!("[{all},^]")));
    // Over all processes.
    let of = |counts: String| {
        object(&[
            &format!(r#""INSTR_COUNT":0,"INSTR_COUNT_PER_THREAD":[{counts}]"#),
            NO_EDGES,
        ])
    };
    let text = data(&[&of(zeros(200)), &of(zeros(56))]);
    assert!(second::dcfg::lines(text.as_bytes()).starts_with("edges 0 threads 256\n0 0\n"));
    refused(37, data(&[&of(zeros(200)), &of(zeros(56) + ",^0")]));
    refused(
        37,
        data(&[&of(zeros(255)), &of(zeros(1)), &of("^0".to_string())]),
    );
    // Counts of edges are no threads.
    listed(
        rows(&format!("[1,2,3,4,[{}]]", zeros(300))),
        &["edges 1 threads 0", "0 1 2 3 4"],
    );
}
