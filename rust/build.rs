//! Links libnimskerf.a from the folder NIMSKERF_LIB, by default ../target/lib (where `make` writes it).

use std::{env, path::PathBuf};

fn main() {
    println!("cargo:rerun-if-env-changed=NIMSKERF_LIB");
    let folder = env::var_os("NIMSKERF_LIB").map(PathBuf::from).unwrap_or_else(|| {
        let here = PathBuf::from(env::var_os("CARGO_MANIFEST_DIR").expect("cargo sets CARGO_MANIFEST_DIR"));
        here.join("../target/lib")
    });
    let library = folder.join("libnimskerf.a");
    println!("cargo:rerun-if-changed={}", library.display());
    if !library.is_file() {
        panic!("{} is missing: run `make`, or set NIMSKERF_LIB to its folder", library.display());
    }
    println!("cargo:rustc-link-search=native={}", folder.display());
    println!("cargo:rustc-link-lib=static=nimskerf");
}
