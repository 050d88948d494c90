//! Links the proved library that `host/library` has built for this machine.

use std::{env, path::PathBuf};

fn main() {
    let build = PathBuf::from(env::var("CARGO_MANIFEST_DIR").unwrap()).join("build");
    let library = build.join("libkakoludar.a");
    println!("cargo::rerun-if-changed={}", library.display());
    if !library.exists() {
        panic!("{} is not there: run host/library first", library.display());
    }
    println!("cargo::rustc-link-search=native={}", build.display());
    println!("cargo::rustc-link-lib=static=kakoludar");
}
