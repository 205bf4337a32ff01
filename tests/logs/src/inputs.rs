//! The logs of a run: those made for the replay, those made for reading, and
//! the samples.

use crate::calls;
use crate::generate;
use second::order::Order;
use std::path::{Path, PathBuf};

/// What a log was made as.
#[derive(Debug, Clone, Copy, PartialEq, Eq)]
pub enum Kind {
    Calls(calls::Kind),
    Logs(generate::Kind),
}

impl Kind {
    /// Every kind.
    pub fn all() -> Vec<Kind> {
        let calls = calls::Kind::ALL.into_iter().map(Kind::Calls);
        let logs = generate::Kind::ALL.into_iter().map(Kind::Logs);
        calls.chain(logs).collect()
    }

    /// The kind of the log with this index. Two of three are made for the
    /// replay.
    fn at(index: u64) -> Kind {
        let (third, part) = (index / 3, index % 3);
        match part {
            2 => Kind::Logs(generate::Kind::at(third)),
            _ => Kind::Calls(calls::Kind::at(third * 2 + part)),
        }
    }

    pub fn log(self, seed: u64, order: Order) -> Vec<u8> {
        match self {
            Kind::Calls(kind) => calls::log(kind, seed, order),
            Kind::Logs(kind) => generate::log(kind, seed, order),
        }
    }

    /// Whether its logs are around 16 MiB long.
    pub fn is_huge(self) -> bool {
        self == Kind::Calls(calls::Kind::Limit) || self == Kind::Logs(generate::Kind::Limit)
    }

    /// Its place in `Kind::all()`.
    pub fn index(self) -> usize {
        match self {
            Kind::Calls(kind) => kind as usize,
            Kind::Logs(kind) => calls::Kind::ALL.len() + kind as usize,
        }
    }

    pub fn name(self) -> String {
        match self {
            Kind::Calls(kind) => format!("calls {kind:?}"),
            Kind::Logs(kind) => format!("logs {kind:?}"),
        }
    }
}

/// The index in its half of a run, and the byte order, of the input with this
/// index: as many inputs of each kind are big-endian as are little-endian.
pub fn halved(index: u64) -> (u64, Order) {
    (index / 2, Order::ALL[(index % 2) as usize])
}

/// A generated log, before it is made.
pub struct Input {
    pub kind: Kind,
    pub seed: u64,
    pub order: Order,
}

impl Input {
    /// The log with this index in a run with this seed.
    pub fn at(index: u64, seed: u64) -> Input {
        let (half, order) = halved(index);
        Input {
            kind: Kind::at(half),
            seed: seed.wrapping_add(index),
            order,
        }
    }

    pub fn log(&self) -> Vec<u8> {
        self.kind.log(self.seed, self.order)
    }

    pub fn name(&self) -> String {
        format!("{}, {:?}", self.kind.name(), self.order)
    }
}

/// A sample log, and the byte order that its name says it is to be read in.
pub struct Sample {
    pub name: String,
    pub order: Order,
    pub log: Vec<u8>,
}

/// Every sample, in the order of their names.
pub fn samples() -> Result<Vec<Sample>, String> {
    let folder = Path::new(env!("CARGO_MANIFEST_DIR")).join("../../samples");
    let fault = |error: std::io::Error| format!("samples: {error}");
    let mut paths: Vec<PathBuf> = Vec::new();
    for entry in std::fs::read_dir(folder).map_err(fault)? {
        let path = entry.map_err(fault)?.path();
        if path.extension().is_some_and(|extension| extension == "fdr") {
            paths.push(path);
        }
    }
    paths.sort();
    let mut samples = Vec::new();
    for path in paths {
        let log = std::fs::read(&path).map_err(fault)?;
        let file = path.file_stem().unwrap_or_default().to_string_lossy();
        samples.push(Sample {
            name: format!("sample {file}"),
            order: match file.ends_with("-big-endian") {
                true => Order::Big,
                false => Order::Little,
            },
            log,
        });
    }
    if samples.is_empty() {
        return Err("samples: no logs".to_string());
    }
    Ok(samples)
}
