//! What the build scripts of `pkt` and `ezpkt` share. The Rust files are compiled where they lie,
//! in a folder outside this repository, and nothing of them is copied.

use std::path::{Path, PathBuf};
use std::{env, fs};

/// The environment variable that names the folder above `pkt/src` and `ezpkt/src`. A relative path
/// counts from the repository's root, as `DEFAULT` does.
pub const VARIABLE: &str = "RESYNTH_SRC";

/// The folder that is taken where the variable is not set.
pub const DEFAULT: &str = "../shared/docs/src";

/// A file of the Rust, and the words that declare it as a module.
pub struct Module {
    pub file: &'static str,
    pub declaration: &'static str,
}

/// The repository's root, two folders above the crate that is being built.
fn root() -> PathBuf {
    let manifest = env::var("CARGO_MANIFEST_DIR").expect("cargo sets CARGO_MANIFEST_DIR");
    Path::new(&manifest).join("../..")
}

fn find(file: &str) -> PathBuf {
    let folder = env::var(VARIABLE).unwrap_or_else(|_| DEFAULT.to_string());
    let path = root().join(folder).join(file);
    fs::canonicalize(&path).unwrap_or_else(|e| {
        panic!(
            "{} cannot be read ({e}); {VARIABLE} names the folder that holds {file}",
            path.display()
        )
    })
}

/// Writes `sources.rs` into the build's own folder. It declares each file as a module by its path,
/// and `SOURCES` holds each file's name and bytes as they were compiled.
pub fn emit(modules: &[Module]) {
    let mut declared = String::new();
    let mut listed = String::new();
    for m in modules {
        let path = find(m.file);
        println!("cargo:rerun-if-changed={}", path.display());
        declared += &format!("#[path = {path:?}]\n{}\n", m.declaration);
        listed += &format!("    ({:?}, include_bytes!({path:?})),\n", m.file);
    }
    println!("cargo:rerun-if-env-changed={VARIABLE}");
    let text = format!("{declared}\npub const SOURCES: &[(&str, &[u8])] = &[\n{listed}];\n");
    let out = env::var("OUT_DIR").expect("cargo sets OUT_DIR");
    fs::write(Path::new(&out).join("sources.rs"), text).expect("the build's folder can be written");
}
