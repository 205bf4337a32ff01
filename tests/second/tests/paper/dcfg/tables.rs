//! Tables by their headers, keys, and what is needed of them.

use super::*;

#[test]
fn columns_in_any_order() {
    listed(
        edges(
            r#"[["COUNT_PER_THREAD","Y","EDGE_TYPE_ID","TARGET_NODE_ID","EDGE_ID","Z","SOURCE_NODE_ID"],
            [[1],{"a":[]},4,3,1,null,2],[[],"",40,30,10,[1,2],20]]"#,
        ),
        &["edges 2 threads 0", "0 1 2 3 4", "0 10 20 30 40"],
    );
    accepted(edge_types(
        r#"[["EDGE_TYPE","Y","EDGE_TYPE_ID"],["A",0,1],["B",0,2]]"#,
    ));
    accepted(special_nodes(
        r#"[["NODE_NAME","NODE_ID"],["A",1],["A",2]]"#,
    ));
    accepted(processes(r#"[["Y","PROCESS_DATA","PROCESS_ID"]]"#));
}

/// A table of another kind has other columns, which are skipped here.
#[test]
fn columns_of_other_tables() {
    accepted(special_nodes(
        r#"[["EDGE_TYPE_ID","NODE_NAME","NODE_ID"],[0,"A",1],[0,"B",2]]"#,
    ));
    accepted(edge_types(
        r#"[["NODE_ID","EDGE_TYPE_ID","EDGE_TYPE"],[0,1,"A"],["",2,"A"]]"#,
    ));
}

#[test]
fn cells_past_the_header() {
    listed(
        rows("[1,2,3,4,[],5,[6],{\"a\":7},null,0]"),
        &["edges 1 threads 0", "0 1 2 3 4"],
    );
    accepted(edge_types(
        r#"[["EDGE_TYPE_ID","EDGE_TYPE"],[1,"A",0,0,1]]"#,
    ));
    // The first row alone is the header, and it is one by its place.
    accepted(edge_types(
        r#"[["EDGE_TYPE_ID","EDGE_TYPE"],[1,"EDGE_TYPE","EDGE_TYPE"]]"#,
    ));
    refused(
        34,
        edge_types(r#"[["EDGE_TYPE_ID","EDGE_TYPE"],["EDGE_TYPE_ID^","EDGE_TYPE"]]"#),
    );
}

#[test]
fn keys_in_any_order() {
    accepted(object(&[
        NO_PROCESSES,
        r#""MINOR_VERSION":0"#,
        NODES,
        TYPES,
        r#""MAJOR_VERSION":1"#,
    ]));
    let row = format!("[{HEADER},[1,2,3,4,[]]]");
    listed(
        data(&[&format!(
            r#"{{"EDGES":{row},"IMAGES":0,"INSTR_COUNT_PER_THREAD":[5],"INSTR_COUNT":5}}"#
        )]),
        &["edges 1 threads 1", "0 1 2 3 4", "0 5"],
    );
}

/// The process is the row's place among PROCESSES, whatever its PROCESS_ID.
#[test]
fn several_processes() {
    let first = format!(
        r#"{{"INSTR_COUNT":1,"INSTR_COUNT_PER_THREAD":[1],"EDGES":[{HEADER},[9,8,7,6,[]]]}}"#
    );
    let second = object(&[r#""INSTR_COUNT":0,"INSTR_COUNT_PER_THREAD":[]"#, NO_EDGES]);
    let third = format!(
        r#"{{"INSTR_COUNT":5,"INSTR_COUNT_PER_THREAD":[2,3],"EDGES":[{HEADER},[9,8,7,6,[]],[1,2,3,4,[1]]]}}"#
    );
    listed(
        data(&[&first, &second, &third]),
        &[
            "edges 3 threads 3",
            "0 9 8 7 6",
            "2 9 8 7 6",
            "2 1 2 3 4",
            "0 1",
            "2 2",
            "2 3",
        ],
    );
}

#[test]
fn kinds_of_tables() {
    for marked in ["nul^l", "{^}", "1^1", r#""^""#] {
        refused(34, edge_types(marked));
        refused(34, special_nodes(marked));
        refused(34, processes(marked));
        refused(34, edges(marked));
        // A header that is no array, and a row.
        refused(34, edge_types(&format!("[{marked}]")));
        refused(34, edges(&format!("[{marked},[]]")));
        refused(34, rows(marked));
        refused(
            34,
            special_nodes(&format!(r#"[["NODE_ID","NODE_NAME"],[1,"A"],{marked}]"#)),
        );
    }
    // A column that is no string, used by a row or not.
    for marked in ["nul^l", "{^}", "1^1", "[^]"] {
        refused(
            34,
            edge_types(&format!(r#"[["EDGE_TYPE_ID","EDGE_TYPE",{marked}]]"#)),
        );
        refused(
            34,
            edge_types(&format!(
                r#"[[{marked},"EDGE_TYPE_ID","EDGE_TYPE"],[0,1,"A"]]"#
            )),
        );
        refused(34, edges(&format!("[[{marked}]]")));
    }
    refused(34, data(&["[^]"]));
    refused(34, data(&["nul^l"]));
    // An inner value ends before the outer one.
    refused(34, edges("[^5]"));
    refused(34, data(&[&of_edges("[{^}]"), "5"]));
}

#[test]
fn repeated_keys() {
    refused(33, format!(r#"{{{VERSION},"MINOR_VERSION^":0}}"#));
    refused(33, format!(r#"{{{NO_PROCESSES},"PROCESSES^":[broken"#));
    refused(
        33,
        format!(r#"{{{VERSION},"PROCESSES":[],"PROCESSES^":0}}"#),
    );
    refused(33, r#"{"a":1,"a^":2}"#);
    refused(33, r#"{"a":1,"a^""#);
    refused(33, r#"{"a":1,"a^"x"#);
    refused(33, r#"{"a":1,"b":2,"c":3,"b^":4,"a":5}"#);
    // A process, skipped values at any depth, values of the wrong kind.
    refused(33, data(&[r#"{"INSTR_COUNT":0,"INSTR_COUNT^":0}"#]));
    refused(33, skipped(r#"{"a":1,"a^":2}"#));
    refused(33, skipped(r#"[[{"b":{"a":1,"a^":2}}]]"#));
    refused(33, version(r#"{"a":1,"a^":2}"#));
    refused(33, r#"[{"a":1,"a^":2}]"#);
    refused(33, rows(r#"[1,1,1,1,[{"a":1,"a^":2}]]"#));
    refused(33, rows(r#"[1,1,1,1,[],{"a":1,"a^":2}]"#));
    // The same key in two objects, and a key as a string elsewhere.
    accepted(skipped(r#"[{"a":1},{"a":1},{"b":{"a":1},"a":"a"}]"#));
    accepted(skipped(r#"{"X":1,"PROCESSES":2}"#));
}

#[test]
fn repeated_columns() {
    refused(
        33,
        edge_types(r#"[["EDGE_TYPE_ID","EDGE_TYPE","EDGE_TYPE_ID^"]]"#),
    );
    refused(33, special_nodes(r#"[["Y","NODE_ID","NODE_NAME","Y^"]]"#));
    refused(33, processes(r#"[["","PROCESS_ID","PROCESS_DATA","^"]]"#));
    refused(33, edges(r#"[["EDGE_ID","EDGE_ID^""#));
    refused(33, edges(r#"[["/","\/^"]]"#));
    // What is skipped has no header.
    accepted(skipped(r#"[["A","A"],["A","A"]]"#));
    accepted(data(&[&object(&[
        r#""IMAGES":[["A","A"]],"INSTR_COUNT":0,"INSTR_COUNT_PER_THREAD":[]"#,
        NO_EDGES,
    ])]));
}

/// Known only at their level: elsewhere a key is skipped, whatever its value.
#[test]
fn levels() {
    accepted(object(&[
        VERSION,
        TYPES,
        NODES,
        NO_PROCESSES,
        r#""EDGES":5,"INSTR_COUNT":"","FILE_NAMES":{}"#,
    ]));
    let process = r#""EDGE_TYPES":5,"PROCESSES":null,"INSTR_COUNT":0,"INSTR_COUNT_PER_THREAD":[],"IMAGES":[["IMAGE_ID","IMAGE_ID"],[0],[0]]"#;
    accepted(data(&[&object(&[process, NO_EDGES])]));
}

#[test]
fn needed_keys() {
    let parts = [
        r#""MAJOR_VERSION":1"#,
        r#""MINOR_VERSION":0"#,
        TYPES,
        NODES,
        NO_PROCESSES,
    ];
    accepted(object(&parts));
    for missing in 0..5 {
        let mut some = parts.to_vec();
        some.remove(missing);
        refused(38, object(&some) + "^");
        refused(38, object(&some) + " \t^");
    }
    refused(38, "{}^");
    refused(38, " { } ^");
    let parts = [
        r#""INSTR_COUNT":0"#,
        r#""INSTR_COUNT_PER_THREAD":[]"#,
        NO_EDGES,
    ];
    accepted(data(&[&object(&parts)]));
    for missing in 0..3 {
        let mut some = parts.to_vec();
        some.remove(missing);
        refused(38, data(&[&object(&some)]) + "^");
        refused(38, data(&[&object(&parts), &object(&some)]) + "^");
    }
    refused(38, data(&["{}"]) + "^");
}

#[test]
fn needed_columns() {
    // No header at all, or an empty one; also where no row would use it.
    for table in ["[]", "[[]]", "[[],[]]", r#"[["Y"]]"#] {
        refused(38, edge_types(table) + "^");
        refused(38, special_nodes(table) + "^");
        refused(38, processes(table) + "^");
        refused(38, edges(table) + "^");
    }
    refused(38, edge_types(r#"[["EDGE_TYPE_ID"]]"#) + "^");
    refused(38, edge_types(r#"[["EDGE_TYPE"]]"#) + "^");
    refused(38, special_nodes(r#"[["NODE_ID"]]"#) + "^");
    refused(38, special_nodes(r#"[["NODE_NAME"]]"#) + "^");
    refused(38, processes(r#"[["PROCESS_ID"]]"#) + "^");
    refused(38, processes(r#"[["PROCESS_DATA"]]"#) + "^");
    let columns = [
        "EDGE_ID",
        "SOURCE_NODE_ID",
        "TARGET_NODE_ID",
        "EDGE_TYPE_ID",
        "COUNT_PER_THREAD",
    ];
    for missing in columns {
        refused(
            38,
            edges(&format!("[{}]", HEADER.replace(missing, "Y"))) + "^",
        );
    }
}

/// "Columns in every row".
#[test]
fn short_rows() {
    for row in ["[]", "[1]", "[1,2]", "[1,2,3]", "[1,2,3,4]"] {
        refused(38, rows(row) + "^");
        refused(38, rows(&format!("[9,1,1,1,[]],{row},[8,1,1,1,[]]")) + "^");
    }
    refused(
        38,
        edge_types(r#"[["EDGE_TYPE_ID","EDGE_TYPE"],[1]]"#) + "^",
    );
    refused(
        38,
        special_nodes(r#"[["NODE_ID","NODE_NAME"],[1,"A"],[]]"#) + "^",
    );
    refused(
        38,
        processes(r#"[["PROCESS_ID","PROCESS_DATA"],[1]]"#) + "^",
    );
    // A null is there, and of the wrong kind.
    refused(34, rows("[1,2,3,4,nul^l]"));
    // An unknown column may be missing at the end.
    accepted(edge_types(
        r#"[["EDGE_TYPE_ID","EDGE_TYPE","Y","Z"],[1,"A"],[2,"B",0]]"#,
    ));
    // A column behind one that is missing is missing too, in an order of columns of its own.
    refused(
        38,
        edge_types(r#"[["Y","EDGE_TYPE","EDGE_TYPE_ID"],[1,"A"]]"#) + "^",
    );
}

/// No references are checked.
#[test]
fn references() {
    listed(
        rows("[1,1000,2000,3000,[1,2,3,4,5]]"),
        &["edges 1 threads 0", "0 1 1000 2000 3000"],
    );
}

/// Any version is accepted.
#[test]
fn versions() {
    for value in ["0", "99", "18446744073709551615"] {
        accepted(version(value));
    }
}
