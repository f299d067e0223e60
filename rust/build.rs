//! Links libwispbundle.a from the folder that WISPBUNDLE_LIB names.

use std::path::{Path, PathBuf};
use std::{env, process};

const VARIABLE: &str = "WISPBUNDLE_LIB";

/// The folder that is taken where the variable is not set, and what writes the archive there.
fn usual(processor: &str) -> (&'static str, &'static str) {
    if processor == "x86_64" {
        ("../target/staticlib", ".ci/archive")
    } else {
        ("../target/host", "rust/host-archive")
    }
}

fn main() {
    let processor = env::var("CARGO_CFG_TARGET_ARCH").expect("cargo names the processor");
    let here = PathBuf::from(env::var("CARGO_MANIFEST_DIR").expect("cargo names the folder"));
    let (folder, command) = usual(&processor);
    let folder = match env::var(VARIABLE) {
        Ok(named) => PathBuf::from(named),
        Err(_) => here.join(folder),
    };
    let archive = Path::new(&folder).join("libwispbundle.a");
    println!("cargo:rerun-if-env-changed={VARIABLE}");
    println!("cargo:rerun-if-changed={}", archive.display());
    if !archive.is_file() {
        eprintln!(
            "{} is not there: run `{command}` at the repository's root, or name the archive's folder in {VARIABLE}.",
            archive.display()
        );
        process::exit(1);
    }
    println!("cargo:rustc-link-search=native={}", folder.display());
    println!("cargo:rustc-link-lib=static=wispbundle");
}
