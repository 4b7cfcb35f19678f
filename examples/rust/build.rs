//! Links the static library that `rt lib` in crates/lotjudge_c writes.

fn main() {
    let top = concat!(env!("CARGO_MANIFEST_DIR"), "/../..");
    println!("cargo:rustc-link-search=native={top}/crates/lotjudge_c/out");
    println!("cargo:rustc-link-lib=static=lotjudge_c");
    println!("cargo:rerun-if-changed={top}/crates/lotjudge_c/out/liblotjudge_c.a");
}
