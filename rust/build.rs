//! Links `libmulzhegat.a` from `../target/staticlib`, or from the folder named by `MULZHEGAT_LIB_DIR`.

use std::{env, path::PathBuf};

fn main() {
    println!("cargo:rerun-if-env-changed=MULZHEGAT_LIB_DIR");
    let root = PathBuf::from(env::var_os("CARGO_MANIFEST_DIR").expect("cargo sets CARGO_MANIFEST_DIR"));
    let folder = env::var_os("MULZHEGAT_LIB_DIR").map_or_else(|| root.join("../target/staticlib"), PathBuf::from);
    let archive = folder.join("libmulzhegat.a");
    println!("cargo:rerun-if-changed={}", archive.display());
    let place = std::path::absolute(&archive).unwrap_or(archive);
    assert!(place.exists(), "{} is missing: make it with `make library`", place.display());
    let folder = folder.canonicalize().expect("the folder of the archive can be named");
    println!("cargo:rustc-link-search=native={}", folder.display());
    println!("cargo:rustc-link-lib=static=mulzhegat");
}
