//! The logs to measure on, in memory and in files.

use crate::maker::made;
use crate::{Fallible, MIB, SIZES};
use logs::turn::turned;
use second::order::Order;
use std::env;
use std::fs;
use std::path::{Path, PathBuf};

/// What the buffers of a log hold.
#[derive(Debug, Clone, Copy)]
pub enum Kind {
    /// Entry and Exit.
    Plain,
    /// The same of 1,000 functions, in any order.
    ManyIds,
    /// Calls of 1,024 functions, the highest id first and the lowest last, over
    /// and over.
    Falling,
    /// Calls with and without arguments, Tail_Exit, events, TSCWrap and
    /// NewCPUId.
    Mixed,
}

impl Kind {
    pub fn name(self) -> &'static str {
        match self {
            Kind::Plain => "plain",
            Kind::ManyIds => "1,000 ids",
            Kind::Falling => "falling ids",
            Kind::Mixed => "mixed",
        }
    }

    /// The number of functions.
    pub fn ids(self) -> u64 {
        match self {
            Kind::ManyIds => 1000,
            Kind::Falling => 1024,
            Kind::Plain | Kind::Mixed => 16,
        }
    }
}

/// A little-endian log in memory and in a file.
pub struct Log {
    pub mib: usize,
    pub bytes: Vec<u8>,
    /// The same log in its big-endian form.
    pub turned: Vec<u8>,
    pub path: PathBuf,
}

impl Log {
    /// The logs of one kind, in the order of their sizes.
    pub fn all(kind: Kind, folder: &Folder) -> Fallible<Vec<Log>> {
        let make = |mib| {
            let bytes = made(kind, mib * MIB);
            let path = folder.0.join(format!("{kind:?}-{mib}.fdr"));
            fs::write(&path, &bytes).map_err(|error| named(&path, error))?;
            let turned = turned(&bytes, Order::Little);
            Ok(Log {
                mib,
                bytes,
                turned,
                path,
            })
        };
        SIZES.into_iter().map(make).collect()
    }
}

/// A folder for the time of a run. It lies in memory where the system has such
/// a place, so that no disk is measured.
pub struct Folder(PathBuf);

impl Folder {
    pub fn new() -> Fallible<Folder> {
        let memory = Path::new("/dev/shm");
        let place = match memory.is_dir() {
            true => memory.to_path_buf(),
            false => env::temp_dir(),
        };
        let folder = place.join(format!("towercloak-bench-{}", std::process::id()));
        fs::create_dir(&folder).map_err(|error| named(&folder, error))?;
        Ok(Folder(folder))
    }
}

impl Drop for Folder {
    fn drop(&mut self) {
        // What is left there is no fault of the run.
        let _ = fs::remove_dir_all(&self.0);
    }
}

pub fn named(path: &Path, error: std::io::Error) -> String {
    format!("{}: {error}", path.display())
}
