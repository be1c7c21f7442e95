//! Links the proved static library: libperq.a in the folder PERQ_LIB_DIR names, by default build/ at the top.

use std::env;
use std::path::PathBuf;

fn main() {
    let by_default = || {
        PathBuf::from(env::var_os("CARGO_MANIFEST_DIR").expect("cargo sets it")).join("../../build")
    };
    let folder = env::var_os("PERQ_LIB_DIR").map_or_else(by_default, PathBuf::from);
    let archive = folder.join("libperq.a");
    println!("cargo:rerun-if-env-changed=PERQ_LIB_DIR");
    println!("cargo:rerun-if-changed={}", archive.display());
    assert!(archive.exists(), "{} is not there: `make library` makes it", archive.display());
    println!("cargo:rustc-link-search=native={}", folder.display());
    println!("cargo:rustc-link-lib=static=perq");
}
