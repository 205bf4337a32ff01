//! Links the proved code: the static libraries that the file `libraries` names,
//! from the folder that `STATICLIB_DIR` names, else from the repository's
//! `target/staticlib`.

use std::env;
use std::path::PathBuf;

fn main() {
    let folder = match env::var_os("STATICLIB_DIR") {
        Some(folder) => PathBuf::from(folder),
        None => {
            let package = env::var_os("CARGO_MANIFEST_DIR").expect("set by cargo");
            PathBuf::from(package).join("../target/staticlib")
        }
    };
    println!("cargo:rustc-link-search=native={}", folder.display());
    for library in include_str!("libraries").split_whitespace() {
        let archive = folder.join(format!("lib{library}.a"));
        println!("cargo:rustc-link-lib=static={library}");
        println!("cargo:rerun-if-changed={}", archive.display());
    }
    println!("cargo:rerun-if-env-changed=STATICLIB_DIR");
}
