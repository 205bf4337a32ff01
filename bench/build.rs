//! Compiles the limit, `limit.c`, by the C compiler that `CC` names, else by
//! `cc`, and links it.

use std::env;
use std::path::PathBuf;
use std::process::Command;

fn run(command: &mut Command) {
    let status = command.status();
    assert!(
        status.as_ref().is_ok_and(|status| status.success()),
        "{command:?}: {status:?}"
    );
}

fn main() {
    let folder = PathBuf::from(env::var_os("OUT_DIR").expect("set by cargo"));
    let compiler = env::var_os("CC").unwrap_or_else(|| "cc".into());
    let (object, archive) = (folder.join("limit.o"), folder.join("liblimit.a"));
    run(Command::new(compiler)
        .args(["-O3", "-c", "limit.c", "-o"])
        .arg(&object));
    run(Command::new("ar").arg("crs").arg(&archive).arg(&object));
    println!("cargo:rustc-link-search=native={}", folder.display());
    println!("cargo:rustc-link-lib=static=limit");
    println!("cargo:rerun-if-changed=limit.c");
    println!("cargo:rerun-if-env-changed=CC");
}
