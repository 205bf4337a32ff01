//! The table of what was measured.

use crate::log::{Folder, Kind, Log};
use crate::measure::{medians, Cost, Input};
use crate::{Fallible, MIB};

/// Names of programs: the proved one, whose times are the unit, the same on the
/// log in its big-endian form, the second, and the limit.
pub const TOWERCLOAK: &str = "towercloak";
pub const BIG_ENDIAN: &str = "towercloak, big-endian";
pub const SECOND: &str = "second";
pub const LIMIT: &str = "limit";

const HEAD: &str = "\
| job | log | program | time, 1 MiB | 4 MiB | 16 MiB | growth, 4 MiB | 16 MiB | peak, 1 MiB | 4 MiB | 16 MiB |
|---|---|---|---|---|---|---|---|---|---|---|";

/// A job that is done on logs: its name, and its programs for one of them.
pub type Job = (&'static str, fn(&Log) -> Input<'_>);

/// Checks the logs of these kinds, and prints a table of the jobs on them.
pub fn on_logs(kinds: &[Kind], check: fn(&Log) -> Fallible<()>, jobs: &[Job]) -> Fallible<()> {
    let folder = Folder::new()?;
    let mut all = Vec::new();
    for kind in kinds {
        let logs = Log::all(*kind, &folder)?;
        logs.iter().try_for_each(check)?;
        all.push((kind.name(), logs));
    }
    head();
    for (job, input) in jobs {
        for (kind, logs) in &all {
            rows(job, kind, logs.iter().map(input).collect())?;
        }
    }
    Ok(())
}

pub fn head() {
    println!("{HEAD}");
}

/// Does a job on its inputs, which stand in the order of their sizes, and
/// prints a row for each program.
pub fn rows(job: &str, log: &str, mut inputs: Vec<Input>) -> Fallible<()> {
    let costs = medians(&mut inputs)?;
    for (at, program) in inputs[0].programs.iter().enumerate() {
        let row = Row {
            own: costs.iter().map(|costs| costs[at]).collect(),
            unit: costs.iter().map(|costs| costs[0]).collect(),
            bytes: inputs.iter().map(|input| input.bytes).collect(),
        };
        println!("| {job} | {log} | {} | {} |", program.name, row.cells());
        eprintln!("{job}, {log}, {}: {}", program.name, row.milliseconds());
    }
    Ok(())
}

/// A program's costs by the size of the input, and Towercloak's.
struct Row {
    own: Vec<Cost>,
    unit: Vec<Cost>,
    bytes: Vec<usize>,
}

impl Row {
    /// Times against Towercloak's, times for one byte against those of the
    /// smallest input, and peaks.
    fn cells(&self) -> String {
        let ratio = |(own, unit): (&Cost, &Cost)| format!("{:.2}", own.seconds / unit.seconds);
        let times = self.own.iter().zip(&self.unit).map(ratio);
        let per_byte = |at: usize| self.own[at].seconds / self.bytes[at] as f64;
        let growth = (1..self.own.len()).map(|at| format!("{:.2}", per_byte(at) / per_byte(0)));
        let peak = |cost: &Cost| cost.peak.map_or(String::new(), |peak| format!("{peak:.1}"));
        let cells: Vec<String> = times
            .chain(growth)
            .chain(self.own.iter().map(peak))
            .collect();
        cells.join(" | ")
    }

    /// For whoever runs it, since they depend on the machine.
    fn milliseconds(&self) -> String {
        let one = |(cost, bytes): (&Cost, &usize)| {
            let (ms, mib) = (cost.seconds * 1e3, *bytes as f64 / MIB as f64);
            format!("{ms:.3} ms, {:.3} ms for one MiB", ms / mib)
        };
        let all: Vec<String> = self.own.iter().zip(&self.bytes).map(one).collect();
        all.join("; ")
    }
}
