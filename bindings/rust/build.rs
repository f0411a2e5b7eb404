// SPDX-License-Identifier: MIT OR Apache-2.0
//! Links the C library: `BPFTAP_LIB` names its folder, else it is `native` of a crate that was handed on, or that of the repository, which
//! `./build bpftap_c` makes.
use std::path::PathBuf;

fn main() {
    let here = PathBuf::from(std::env::var_os("CARGO_MANIFEST_DIR").expect("cargo sets it"));
    let native = here.join("native");
    let folder = match std::env::var_os("BPFTAP_LIB") {
        Some(named) => PathBuf::from(named),
        None if native.is_dir() => native,
        None => here.join("../../out/lib"),
    };
    let archive = folder.join("libbpftap.a");
    println!("cargo:rerun-if-env-changed=BPFTAP_LIB");
    println!("cargo:rerun-if-changed={}", archive.display());
    if !archive.is_file() {
        eprintln!("{} is not there: let BPFTAP_LIB name the folder of libbpftap.a, or run ./build bpftap_c in the repository", archive.display());
        std::process::exit(1);
    }
    println!("cargo:rustc-link-search=native={}", folder.display());
    println!("cargo:rustc-link-lib=static=bpftap");
}
