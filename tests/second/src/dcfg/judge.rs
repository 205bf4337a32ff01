//! What a DCFG is, over the values of a JSON text. Faults may be found in any
//! order, since each has its place.

use super::faults::{self, Faults};
use super::{Listed, EDGES, THREADS};
use crate::json::{Kind, Tree, Value};
use std::collections::HashSet;

/// The columns of EDGES, in the order of 000, 2.16.
const EDGE_COLUMNS: [&str; 5] = [
    "EDGE_ID",
    "SOURCE_NODE_ID",
    "TARGET_NODE_ID",
    "EDGE_TYPE_ID",
    "COUNT_PER_THREAD",
];

/// The rows of a text, or its first fault.
pub fn judge(tree: &Tree, text: &[u8]) -> Result<Listed, (usize, u8)> {
    let mut judge = Judge {
        text,
        values: &tree.values,
        faults: Faults::default(),
        listed: Listed::default(),
        edges: 0,
        threads: 0,
    };
    if let Some(place) = tree.broken {
        judge.faults.add(place, faults::NOT_JSON);
    }
    judge.repeated_keys();
    if !tree.values.is_empty() {
        judge.top(0);
    }
    match judge.faults.given(text.len()) {
        Some(fault) => Err(fault),
        None => Ok(judge.listed),
    }
}

pub struct Judge<'a> {
    pub(super) text: &'a [u8],
    pub(super) values: &'a [Value],
    pub(super) faults: Faults,
    listed: Listed,
    /// How many rows of edges and how many threads were met.
    edges: usize,
    threads: usize,
}

impl<'a> Judge<'a> {
    /// In every object of the text, skipped ones as well.
    fn repeated_keys(&mut self) {
        for value in self.values {
            if let Kind::Object(keys) = &value.kind {
                let names = keys.iter().map(|key| (&key.characters[..], key.last));
                self.repeated(names);
            }
        }
    }

    pub(super) fn repeated(&mut self, names: impl Iterator<Item = (&'a [u32], usize)>) {
        let mut met = HashSet::new();
        for (characters, last) in names {
            if !met.insert(characters) {
                self.faults.add(last, faults::REPEATED);
            }
        }
    }

    /// 000, 2.2 to 2.7.
    fn top(&mut self, value: usize) {
        let wanted = [
            "MAJOR_VERSION",
            "MINOR_VERSION",
            "EDGE_TYPES",
            "SPECIAL_NODES",
            "PROCESSES",
        ];
        let [major, minor, edge_types, special_nodes, processes] = self.keys(value, wanted);
        for version in [major, minor].into_iter().flatten() {
            self.integer(version);
        }
        if let Some(table) = edge_types {
            self.names(table, ["EDGE_TYPE_ID", "EDGE_TYPE"]);
        }
        if let Some(table) = special_nodes {
            self.names(table, ["NODE_ID", "NODE_NAME"]);
        }
        if let Some(table) = processes {
            self.processes(table);
        }
    }

    /// A table of ids and strings. 000, 2.5 and 2.6.
    fn names(&mut self, table: usize, columns: [&str; 2]) {
        let mut met = HashSet::new();
        for [id, name] in self.table(table, columns) {
            if let Some(id) = id {
                self.own_id(id, &mut met);
            }
            if let Some(name) = name {
                self.string(name);
            }
        }
    }

    /// 000, 2.7: "PROCESS_ID is no id".
    fn processes(&mut self, table: usize) {
        let rows = self.table(table, ["PROCESS_ID", "PROCESS_DATA"]);
        for (process, [id, data]) in rows.into_iter().enumerate() {
            if let Some(id) = id {
                self.integer(id);
            }
            if let Some(data) = data {
                self.process(process as u64, data);
            }
        }
    }

    /// 000, 2.8.
    fn process(&mut self, process: u64, data: usize) {
        let wanted = ["INSTR_COUNT", "INSTR_COUNT_PER_THREAD", "EDGES"];
        let [total, counts, edges] = self.keys(data, wanted);
        let total = total.and_then(|total| self.integer(total));
        let sum = counts.map(|counts| self.counts(process, counts));
        if let (Some(total), Some(sum)) = (total, sum) {
            self.faults.no_sum |= u128::from(total) != sum;
        }
        if let Some(table) = edges {
            self.edges(process, table);
        }
    }

    /// Each thread's count; gives their sum, which no limit of 64 bits cuts.
    fn counts(&mut self, process: u64, counts: usize) -> u128 {
        let mut sum = 0;
        for value in self.array(counts) {
            if let Some(count) = self.integer(*value) {
                self.listed.threads.push([process, count]);
                sum += u128::from(count);
            }
            self.threads += 1;
            if self.threads > THREADS {
                self.too_many(*value);
            }
        }
        sum
    }

    /// 000, 2.16.
    fn edges(&mut self, process: u64, table: usize) {
        let mut met = HashSet::new();
        for cells in self.table(table, EDGE_COLUMNS) {
            self.edge(process, cells, &mut met);
        }
        // "In all": over the tables of all processes.
        for row in self.array(table).iter().skip(1) {
            self.edges += 1;
            if self.edges > EDGES {
                self.too_many(*row);
            }
        }
    }

    fn edge(&mut self, process: u64, cells: [Option<usize>; 5], met: &mut HashSet<u64>) {
        let [id, source, target, edge_type, counts] = cells;
        let id = id.and_then(|id| self.own_id(id, met));
        let [source, target, edge_type] =
            [source, target, edge_type].map(|cell| cell.and_then(|cell| self.id(cell)));
        for count in counts.map_or(&[][..], |counts| self.array(counts)) {
            self.integer(*count);
        }
        let ids = (id, source, target, edge_type);
        if let (Some(id), Some(source), Some(target), Some(edge_type)) = ids {
            let row = [process, id, source, target, edge_type];
            self.listed.edges.push(row);
        }
    }

    fn too_many(&mut self, value: usize) {
        if let Some(last) = self.values[value].last {
            self.faults.add(last, faults::TOO_MANY);
        }
    }
}
