//! Source document 000: its example of a whole DCFG, and its slips.

use super::*;

/// Section 2.1, mended where it isn't JSON: its eight `...` are out, each with
/// the comma before it, and PROCESS_DATA is closed behind EDGES (`} ] ] }`)
/// instead of before it (`},`, and `] } ] }` at the end).
const EXAMPLE: &str = include_str!("../../../../../samples/dcfg/example.json");

#[test]
fn the_example_mended() {
    listed(
        EXAMPLE,
        &[
            "edges 3 threads 1",
            "0 2887 1741 1742 16",
            "0 1357 665 676 13",
            "0 2888 2424 2069 6",
            "0 1867502",
        ],
    );
}

#[test]
fn the_example_as_printed() {
    // Section 2.1's first table.
    refused(
        31,
        r#"{ "MAJOR_VERSION" : 1, "FILE_NAMES" : [ [ 1, "hello-world" ], ^...] }"#,
    );
    // Section 2.1: PROCESS_DATA is closed before EDGES, which so stands in a row.
    refused(
        31,
        r#"{"X":[ [ 13723, { "IMAGES" : [] }, "EDGES" ^: [] ] ]}"#,
    );
    // Section 2.2: a comma before the bracket.
    refused(31, "{ \"MAJOR_VERSION\" : 0,\n  \"X\" : [],\n^}");
    // Section 2.3: a number with a leading zero.
    refused(
        31,
        r#"{ "MAJOR_VERSION" : 3, "MINOR_VERSION" : 0^4, "X" : 1 }"#,
    );
    // Section 2.4: a comma before the bracket.
    refused(31, "{\"FILE_NAMES\" : [ [ 2, \"\\/hello\" ],\n ^] }");
}

/// Section 2.5: types that its own list doesn't have.
#[test]
fn types_of_any_name() {
    accepted(edge_types(
        r#"[["EDGE_TYPE_ID","EDGE_TYPE"],[22,"INTERRUPT"],[26,"UNKNOWN_IMAGE_BYPASS"],[1,""],[2,""]]"#,
    ));
}

/// Section 2.16.
#[test]
fn the_edges_of_six_threads() {
    listed(
        rows("[4810,1683,3002,16,[0,0,1,1,1,0]],[3460,1597,1598,18,[1,0,0,0,0,0]],[953,1597,1599,13,[7,0,0,0,0,0]]"),
        &[
            "edges 3 threads 0",
            "0 4810 1683 3002 16",
            "0 3460 1597 1598 18",
            "0 953 1597 1599 13",
        ],
    );
}

/// Section 2.8.
#[test]
fn the_counts_of_six_threads() {
    listed(
        counts(
            "2134576",
            "[ 1997750, 51676, 19794,\n 18381, 19598, 27377 ]",
        ),
        &[
            "edges 0 threads 6",
            "0 1997750",
            "0 51676",
            "0 19794",
            "0 18381",
            "0 19598",
            "0 27377",
        ],
    );
}
