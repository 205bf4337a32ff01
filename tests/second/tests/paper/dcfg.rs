//! The reader of DCFG texts against the sentences of Paper 02, CR 6, of Paper
//! 01's first paragraph and of source document 000. In a text that is to be
//! refused a `^` stands before the byte of the place, and is taken out first.

mod brackets;
mod integers;
mod json;
mod lent;
mod limits;
mod order;
mod samples;
mod source;
mod strings;
mod tables;

use second::dcfg::lines;

/// The parts of the least text that is accepted.
const VERSION: &str = r#""MAJOR_VERSION":1,"MINOR_VERSION":0"#;
const TYPES: &str = r#""EDGE_TYPES":[["EDGE_TYPE_ID","EDGE_TYPE"]]"#;
const NODES: &str = r#""SPECIAL_NODES":[["NODE_ID","NODE_NAME"]]"#;
const NO_PROCESSES: &str = r#""PROCESSES":[["PROCESS_ID","PROCESS_DATA"]]"#;
/// A table of no edges, and its header.
const NO_EDGES: &str =
    r#""EDGES":[["EDGE_ID","SOURCE_NODE_ID","TARGET_NODE_ID","EDGE_TYPE_ID","COUNT_PER_THREAD"]]"#;
const HEADER: &str =
    r#"["EDGE_ID","SOURCE_NODE_ID","TARGET_NODE_ID","EDGE_TYPE_ID","COUNT_PER_THREAD"]"#;

/// An object of these members.
fn object(members: &[&str]) -> String {
    format!("{{{}}}", members.join(","))
}

/// A text with one more key at the top, which isn't known.
fn skipped(value: &str) -> String {
    let unknown = format!(r#""X":{value}"#);
    object(&[&unknown, VERSION, TYPES, NODES, NO_PROCESSES])
}

/// A text with this major version.
fn version(value: &str) -> String {
    let version = format!(r#""MAJOR_VERSION":{value},"MINOR_VERSION":0"#);
    object(&[&version, TYPES, NODES, NO_PROCESSES])
}

/// A text with this table of edge types.
fn edge_types(table: &str) -> String {
    let types = format!(r#""EDGE_TYPES":{table}"#);
    object(&[VERSION, &types, NODES, NO_PROCESSES])
}

/// A text with this table of special nodes.
fn special_nodes(table: &str) -> String {
    let nodes = format!(r#""SPECIAL_NODES":{table}"#);
    object(&[VERSION, TYPES, &nodes, NO_PROCESSES])
}

/// A text with this table of processes.
fn processes(table: &str) -> String {
    let processes = format!(r#""PROCESSES":{table}"#);
    object(&[VERSION, TYPES, NODES, &processes])
}

/// A text with a process for each of these data.
fn data(data: &[&str]) -> String {
    let rows: Vec<String> = data.iter().map(|data| format!("[7,{data}]")).collect();
    processes(&format!(
        r#"[["PROCESS_ID","PROCESS_DATA"],{}]"#,
        rows.join(",")
    ))
}

/// A text with one process of no edges, this total and these counts.
fn counts(total: &str, counts: &str) -> String {
    let counts = format!(r#""INSTR_COUNT":{total},"INSTR_COUNT_PER_THREAD":{counts}"#);
    data(&[&object(&[&counts, NO_EDGES])])
}

/// The data of a process of no threads with this table of edges.
fn of_edges(table: &str) -> String {
    format!(r#"{{"INSTR_COUNT":0,"INSTR_COUNT_PER_THREAD":[],"EDGES":{table}}}"#)
}

/// A text with one process, of no threads, with this table of edges.
fn edges(table: &str) -> String {
    data(&[&of_edges(table)])
}

/// A text with these rows behind the source's header of edges.
fn rows(rows: &str) -> String {
    edges(&format!("[{HEADER},{rows}]"))
}

/// The text is accepted, with these lines.
fn listed(text: impl AsRef<[u8]>, expected: &[&str]) {
    let text = text.as_ref();
    let expected = expected.join("\n") + "\n";
    assert_eq!(lines(text), expected, "{}", String::from_utf8_lossy(text));
}

/// The text is accepted, with no rows.
fn accepted(text: impl AsRef<[u8]>) {
    listed(text, &["edges 0 threads 0"]);
}

/// The text without its mark is refused where the mark stood.
fn refused(number: u8, marked: impl AsRef<[u8]>) {
    let marked = marked.as_ref();
    let shown = String::from_utf8_lossy(marked);
    let marks = marked.iter().filter(|byte| **byte == b'^').count();
    assert_eq!(marks, 1, "{shown}");
    let place = marked.iter().position(|byte| *byte == b'^').expect("one");
    let mut text = marked.to_vec();
    text.remove(place);
    let expected = format!("refused {number} at {place}\n");
    assert_eq!(lines(&text), expected, "{shown}");
}

#[test]
fn the_least_text_is_accepted() {
    accepted(object(&[VERSION, TYPES, NODES, NO_PROCESSES]));
    accepted(skipped("1"));
    accepted(version("1"));
    accepted(edges(&format!("[{HEADER}]")));
    accepted(counts("0", "[]"));
}
