//! Where `libcfdp_c.a` lies: the folder in `CFDP_LIB`, else that in which `.ci/archive` makes it.
use std::env;
use std::path::Path;
use std::process::exit;

/// The processor for which `.ci/archive` makes the library without a word of it.
const FIRST: &str = "x86_64-unknown-linux-gnu";

fn main() {
    println!("cargo:rerun-if-env-changed=CFDP_LIB");
    println!("cargo:rerun-if-env-changed=DOCS_RS");
    if env::var_os("DOCS_RS").is_some() {
        return; // pages alone need no library
    }
    let target = env::var("TARGET").unwrap_or_default();
    let (flags, below) = if target == FIRST {
        (String::new(), String::new())
    } else {
        (format!(" --target {target}"), format!("/{target}"))
    };
    let made = format!("{}/../../crates/cfdp_c/out{below}", env!("CARGO_MANIFEST_DIR"));
    let folder = env::var("CFDP_LIB").unwrap_or(made);
    let archive = format!("{folder}/libcfdp_c.a");
    if !Path::new(&archive).is_file() {
        eprintln!("there is no {archive}");
        eprintln!("make it by `.ci/archive{flags}` at the top of cfdp's repository,");
        eprintln!("or say in CFDP_LIB in which folder it lies");
        exit(1);
    }
    println!("cargo:rerun-if-changed={archive}");
    println!("cargo:rustc-link-search=native={folder}");
}
