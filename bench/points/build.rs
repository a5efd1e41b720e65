fn main() {
    let here = std::env::var("CARGO_MANIFEST_DIR").unwrap();
    println!("cargo:rustc-link-search=native={here}/out");
    println!("cargo:rustc-link-lib=static=timed");
    println!("cargo:rerun-if-changed={here}/out/libtimed.a");
}
