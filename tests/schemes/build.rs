//! Links target/staticlib/libexports.a of this repository, or of the folder that TERNAGLUP_LIB names.
use std::env;

fn main() {
    println!("cargo:rerun-if-env-changed=TERNAGLUP_LIB");
    let here = env::var("CARGO_MANIFEST_DIR").unwrap();
    let folder = env::var("TERNAGLUP_LIB").unwrap_or(format!("{here}/../../target/staticlib"));
    println!("cargo:rustc-link-search=native={folder}");
    println!("cargo:rustc-link-lib=static=exports");
    println!("cargo:rerun-if-changed={folder}/libexports.a");
}
