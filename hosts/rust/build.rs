//! Links the static library that `hosts/library` makes.
//! `LAWHEMURI_LIB_DIR` names another folder that holds `libapi.a`.

use std::path::PathBuf;

fn main() {
    let dir = std::env::var_os("LAWHEMURI_LIB_DIR")
        .map(PathBuf::from)
        .unwrap_or_else(|| PathBuf::from(env!("CARGO_MANIFEST_DIR")).join("../../target"));
    println!("cargo:rerun-if-env-changed=LAWHEMURI_LIB_DIR");
    println!("cargo:rerun-if-changed={}", dir.join("libapi.a").display());
    println!("cargo:rustc-link-search=native={}", dir.display());
    println!("cargo:rustc-link-lib=static=api");
}
