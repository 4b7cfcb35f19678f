//! Names the reference's files, unchanged and in place, as modules; links the port where its feature is on.

use std::path::{Path, PathBuf};
use std::{env, fs};

/// Where the files lie if POPSKETCH_SRC does not say: in `shared/`, beside the repository.
const BESIDE: &str = "../../shared/docs/src/crates/popsketch/src";

const MODULES: [&str; 4] = ["par", "permanova", "ordination", "dapc"];

fn main() {
    println!("cargo:rerun-if-changed=build.rs");
    println!("cargo:rerun-if-env-changed=POPSKETCH_SRC");
    let here = PathBuf::from(env::var_os("CARGO_MANIFEST_DIR").unwrap());
    let source = here.join(env::var_os("POPSKETCH_SRC").unwrap_or(BESIDE.into()));
    let source = source.canonicalize().unwrap_or_else(|e| panic!("{}: {e}; set POPSKETCH_SRC", source.display()));
    println!("cargo:rustc-env=POPSKETCH_DIR={}", source.display());
    let mut modules = String::new();
    for name in MODULES {
        let file = source.join(format!("{name}.rs"));
        println!("cargo:rerun-if-changed={}", file.display());
        modules += &format!("#[path = {file:?}]\npub mod {name};\n");
    }
    let out = PathBuf::from(env::var_os("OUT_DIR").unwrap());
    fs::write(out.join("popsketch.rs"), modules).unwrap();
    if env::var_os("CARGO_FEATURE_PORT").is_some() {
        link_port();
    }
}

/// Links the archive LOTJUDGE_LIB, a path of the form `DIR/libNAME.a`.
fn link_port() {
    println!("cargo:rerun-if-env-changed=LOTJUDGE_LIB");
    let archive = env::var("LOTJUDGE_LIB").expect("LOTJUDGE_LIB: the path of the port's static library");
    println!("cargo:rerun-if-changed={archive}");
    let archive = Path::new(&archive).canonicalize().expect("LOTJUDGE_LIB");
    let stem = archive.file_stem().unwrap().to_str().unwrap();
    let name = stem.strip_prefix("lib").expect("LOTJUDGE_LIB: libNAME.a");
    println!("cargo:rustc-link-search=native={}", archive.parent().unwrap().display());
    println!("cargo:rustc-link-lib=static={name}");
}
