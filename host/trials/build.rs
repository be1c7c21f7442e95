//! Compiles the plain C check, plain/check.c, to a static library of its own by gcc and ar.

use std::env;
use std::fs;
use std::path::PathBuf;
use std::process::Command;

fn run(program: &str, words: &[&str]) {
    let ran = Command::new(program).args(words).status();
    let status = ran.unwrap_or_else(|problem| panic!("{program}: {problem}"));
    assert!(status.success(), "{program} {} failed", words.join(" "));
}

/// The C compiler of the target: where cargo was given a linker for it, that one.
fn compiler() -> String {
    println!("cargo:rerun-if-env-changed=RUSTC_LINKER");
    env::var("RUSTC_LINKER").unwrap_or_else(|_| "gcc".to_owned())
}

fn main() {
    let folder = PathBuf::from(env::var_os("OUT_DIR").expect("cargo sets it"));
    let at = |name: &str| folder.join(name).to_str().expect("a path in UTF-8").to_owned();
    let (object, archive) = (at("check.o"), at("libplaincheck.a"));
    println!("cargo:rerun-if-changed=plain");
    println!("cargo:rerun-if-changed=../../include/perq.h");
    let strict = ["-O3", "-std=c99", "-Wall", "-Wextra", "-Werror", "-I../../include"];
    run(&compiler(), &[&strict[..], &["-c", "plain/check.c", "-o", &object]].concat());
    // An archive of an earlier run may hold other objects.
    let _ = fs::remove_file(&archive);
    run("ar", &["crs", &archive, &object]);
    println!("cargo:rustc-link-search=native={}", folder.display());
    println!("cargo:rustc-link-lib=static=plaincheck");
}
