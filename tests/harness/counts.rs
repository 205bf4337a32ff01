//! What a run has seen, in tables. A run fails where something that can come
//! never came, and where something came that cannot.

use crate::entries::GREATEST;
use logs::inputs::Kind;
use second::order::Order;
use std::fmt::{Display, Formatter, Result};

/// The columns of a table that counts by byte order.
pub const ORDERS: [&str; 2] = ["little", "big"];

/// Counts in rows and columns.
pub struct Table {
    heading: &'static str,
    columns: Vec<String>,
    rows: Vec<Row>,
}

struct Row {
    name: String,
    counts: Vec<u64>,
    /// The columns that can be hit.
    can: Vec<usize>,
}

impl Table {
    /// One count a row, of this unit.
    pub fn counting(
        heading: &'static str,
        unit: &str,
        names: impl IntoIterator<Item = impl ToString>,
    ) -> Table {
        Table::grid(heading, &[unit], names)
    }

    /// Logs by byte order and by the kinds of `Kind::all()`; the last row is for
    /// others.
    pub fn kinds(others: &str) -> Table {
        let names = Kind::all().into_iter().map(Kind::name);
        Table::grid("logs by kind", &ORDERS, names.chain([others.to_string()]))
    }

    /// Rows that can each hit every column.
    pub fn grid(
        heading: &'static str,
        columns: &[impl ToString],
        names: impl IntoIterator<Item = impl ToString>,
    ) -> Table {
        let all: Vec<usize> = (0..columns.len()).collect();
        let rows = names.into_iter().map(|name| (name, &all[..]));
        Table::new(heading, columns, rows)
    }

    /// Answers by their refusals, in columns of the same numbers; column 0 is
    /// for none. Each row has the numbers that it can give.
    pub fn refusals<'a>(
        heading: &'static str,
        rows: impl IntoIterator<Item = (impl ToString, &'a [usize])>,
    ) -> Table {
        let mut columns = vec!["none".to_string()];
        columns.extend((1..=GREATEST).map(|number| number.to_string()));
        Table::new(heading, &columns, rows)
    }

    /// The same, with a row for either byte order of each one: `by_order` gives
    /// its place.
    pub fn refusals_by_order(
        heading: &'static str,
        rows: impl IntoIterator<Item = (impl ToString, &'static [usize])>,
    ) -> Table {
        let rows = rows.into_iter().flat_map(|(name, can)| {
            ORDERS.map(|order| (format!("{}, {order}", name.to_string()), can))
        });
        Table::refusals(heading, rows)
    }

    /// Rows with the columns that each can hit.
    pub fn new<'a>(
        heading: &'static str,
        columns: &[impl ToString],
        rows: impl IntoIterator<Item = (impl ToString, &'a [usize])>,
    ) -> Table {
        let rows = rows.into_iter().map(|(name, can)| Row {
            name: name.to_string(),
            counts: vec![0; columns.len()],
            can: can.to_vec(),
        });
        Table {
            heading,
            columns: columns.iter().map(ToString::to_string).collect(),
            rows: rows.collect(),
        }
    }

    pub fn count(&mut self, row: usize, column: usize) {
        self.add(row, column, 1);
    }

    pub fn add(&mut self, row: usize, column: usize, count: u64) {
        self.rows[row].counts[column] += count;
    }

    /// The sum of all counts.
    pub fn sum(&self) -> u64 {
        self.rows.iter().flat_map(|row| &row.counts).sum()
    }

    /// The sum of a row's counts.
    pub fn sum_of(&self, row: usize) -> u64 {
        self.rows[row].counts.iter().sum()
    }

    /// A line for each cell that should have been hit and wasn't, or was and
    /// cannot be.
    pub fn faults(&self) -> Vec<String> {
        let mut faults = Vec::new();
        for row in &self.rows {
            for (column, count) in row.counts.iter().enumerate() {
                let what = match row.can.contains(&column) {
                    true if *count == 0 => "never came",
                    false if *count > 0 => "cannot come, but did",
                    _ => continue,
                };
                faults.push(format!("{}: {what}", self.cell(row, column)));
            }
        }
        faults
    }

    fn cell(&self, row: &Row, column: usize) -> String {
        let name = format!("{}: {}", self.heading, row.name);
        match self.columns.len() {
            1 => name,
            _ => format!("{name}, {}", self.columns[column]),
        }
    }
}

/// The place of a row in a table that has one for either byte order.
pub fn by_order(row: usize, order: Order) -> usize {
    row * ORDERS.len() + order as usize
}

impl Display for Table {
    /// The columns that some row can hit.
    fn fmt(&self, out: &mut Formatter) -> Result {
        let is_hit = |column: &usize| self.rows.iter().any(|row| row.can.contains(column));
        let shown: Vec<usize> = (0..self.columns.len()).filter(is_hit).collect();
        write!(out, "{:<32}", self.heading)?;
        for column in &shown {
            write!(out, "{:>10}", self.columns[*column])?;
        }
        for row in &self.rows {
            write!(out, "\n{:<32}", row.name)?;
            for column in &shown {
                match row.can.contains(column) {
                    true => write!(out, "{:>10}", row.counts[*column])?,
                    false => write!(out, "{:>10}", "-")?,
                }
            }
        }
        writeln!(out)
    }
}
