//! Sound tables as rows, and accepted walks of them.

use crate::codes::{self, Growth};
use crate::Case;
use logs::random::Random;

#[derive(Debug, Clone)]
pub struct Row {
    pub edge: u64,
    pub code: Vec<u64>,
    pub list: Vec<u64>,
}

/// The most of each.
pub struct Shape {
    edges: usize,
    /// Rows of an edge.
    rows: usize,
    growth: Growth,
    /// Edges of a list.
    list: usize,
    steps: usize,
    any_edges: bool,
}

impl Shape {
    pub const USUAL: Shape = Shape {
        edges: 8,
        rows: 6,
        growth: Growth::Anywhere,
        list: 4,
        steps: 12,
        any_edges: false,
    };
    pub const DEEP: Shape = Shape {
        edges: 3,
        rows: 33,
        growth: Growth::AtTheEnd,
        ..Shape::USUAL
    };
    pub const SINGLE: Shape = Shape {
        rows: 1,
        steps: 60,
        ..Shape::USUAL
    };
    pub const LONG_LISTS: Shape = Shape {
        list: 300,
        ..Shape::USUAL
    };
    pub const WIDE: Shape = Shape {
        edges: 3,
        rows: 150,
        ..Shape::USUAL
    };
    pub const ANY_EDGES: Shape = Shape {
        edges: 20,
        any_edges: true,
        ..Shape::USUAL
    };

    /// Different edges.
    fn edges(&self, random: &mut Random) -> Vec<u64> {
        let count = 1 + random.index(self.edges);
        let base = random.value();
        let mut edges: Vec<u64> = (0..count as u64)
            .map(|index| match random.below(3) {
                _ if !self.any_edges => index + 1,
                0 => random.value(),
                _ => base ^ (1 << random.below(64)),
            })
            .collect();
        edges.sort_unstable();
        edges.dedup();
        edges
    }

    /// A list whose last edge mostly has rows.
    fn list(&self, random: &mut Random, edges: &[u64]) -> Vec<u64> {
        let length = 1 + random.index(self.list);
        let mut list: Vec<u64> = (0..length).map(|_| random.value()).collect();
        if !random.once_in(16) {
            list[length - 1] = random.one_of(edges);
        }
        list
    }

    fn table(&self, random: &mut Random) -> Vec<Row> {
        let edges = self.edges(random);
        let mut rows = Vec::new();
        for edge in &edges {
            let most = 1 + random.index(self.rows);
            for code in codes::codes(random, most, self.growth) {
                let (edge, list) = (*edge, self.list(random, &edges));
                rows.push(Row { edge, code, list });
            }
        }
        shuffle(random, &mut rows);
        rows
    }
}

pub fn shuffle(random: &mut Random, rows: &mut [Row]) {
    for place in (1..rows.len()).rev() {
        rows.swap(place, random.index(place + 1));
    }
}

/// A table, and a walk along it.
pub struct Draft {
    pub rows: Vec<Row>,
    pub start: u64,
    pub bits: Vec<u8>,
    pub wanted: u64,
    /// The places of the rows that it goes along.
    pub route: Vec<usize>,
}

impl Draft {
    pub fn new(random: &mut Random, shape: &Shape) -> Draft {
        let rows = shape.table(random);
        let start = rows[random.index(rows.len())].edge;
        let mut draft = Draft {
            rows,
            start,
            bits: Vec::new(),
            wanted: 0,
            route: Vec::new(),
        };
        for _ in 0..1 + random.index(shape.steps) {
            draft.step(random);
        }
        draft
    }

    /// The edge that the walk has come to.
    fn edge(&self) -> u64 {
        match self.route.last() {
            Some(place) => self.rows[*place].list.last().copied().unwrap_or(self.start),
            None => self.start,
        }
    }

    /// Goes along some row of the edge, if it has one.
    fn step(&mut self, random: &mut Random) {
        let edge = self.edge();
        let places = 0..self.rows.len();
        let own: Vec<usize> = places
            .filter(|place| self.rows[*place].edge == edge)
            .collect();
        if own.is_empty() {
            return;
        }
        let place = random.one_of(&own);
        let row = &self.rows[place];
        self.bits
            .extend(row.code.iter().map(|character| *character as u8));
        self.wanted += row.list.len() as u64;
        self.route.push(place);
    }

    /// An edge that has no row.
    pub fn unknown(&self, random: &mut Random) -> u64 {
        let mut edge = random.value();
        while self.rows.iter().any(|row| row.edge == edge) {
            edge = random.number();
        }
        edge
    }

    /// With a list that is long enough.
    pub fn case(self, random: &mut Random) -> Case {
        let more = random.one_of(&[0, 0, 1, 5]);
        Case {
            table: self.rows.iter().flat_map(numbers).collect(),
            start: self.start,
            bits: self.bits,
            wanted: self.wanted,
            length: self.wanted as usize + more,
        }
    }
}

/// The numbers of a row.
pub fn numbers(row: &Row) -> Vec<u64> {
    let mut numbers = vec![row.edge, row.code.len() as u64];
    numbers.extend(&row.code);
    numbers.push(row.list.len() as u64);
    numbers.extend(&row.list);
    numbers
}
