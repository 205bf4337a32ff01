//! Runs a command, whose output goes nowhere, and prints the seconds that it
//! took and its peak of resident memory in MiB.
//!
//! `timed COMMAND [ARGUMENT]...`

use bench::process::end;
use bench::Fallible;
use std::env;
use std::ffi::OsString;
use std::process::{Command, ExitCode, Stdio};
use std::time::Instant;

mod c {
    /// `struct rusage` of 64-bit Linux.
    #[repr(C)]
    #[derive(Default)]
    pub struct Usage {
        pub times: [i64; 4],
        /// The peak of resident memory, in KiB.
        pub peak: i64,
        pub rest: [i64; 13],
    }

    extern "C" {
        pub fn wait4(pid: i32, status: *mut i32, options: i32, usage: *mut Usage) -> i32;
    }
}

fn run(words: &[OsString]) -> Fallible<()> {
    let [program, arguments @ ..] = words else {
        return Err("timed COMMAND [ARGUMENT]...".to_string());
    };
    let mut command = Command::new(program);
    command.args(arguments).stdout(Stdio::null());
    let start = Instant::now();
    let child = command.spawn().map_err(|error| error.to_string())?;
    let (pid, mut status, mut usage) = (child.id() as i32, 0, c::Usage::default());
    // SAFETY: both pointers are those of values that outlive the call.
    let ended = unsafe { c::wait4(pid, &mut status, 0, &mut usage) };
    let seconds = start.elapsed().as_secs_f64();
    if ended != pid || status != 0 {
        return Err(format!("{}: status {status}", program.to_string_lossy()));
    }
    println!("{seconds} {}", usage.peak as f64 / 1024.0);
    Ok(())
}

fn main() -> ExitCode {
    let words: Vec<OsString> = env::args_os().skip(1).collect();
    end(run(&words))
}
