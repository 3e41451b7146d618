//! Finds the proved archive libcapi.a and links it.

use std::env;
use std::path::{Path, PathBuf};
use std::process::exit;

const VARIABLE: &str = "GENTIANLATHE_LIB_DIR";
const IN_REPOSITORY: &str = "../../target/staticlib";
const ARCHIVE: &str = "libcapi.a";

/// The folder that the host named, or the one that `tools/build` writes to.
fn folder(manifest: &Path) -> PathBuf {
    match env::var_os(VARIABLE).filter(|name| !name.is_empty()) {
        Some(name) => PathBuf::from(name),
        None => manifest.join(IN_REPOSITORY),
    }
}

fn main() {
    println!("cargo:rerun-if-changed=build.rs");
    println!("cargo:rerun-if-env-changed={VARIABLE}");
    let manifest =
        PathBuf::from(env::var_os("CARGO_MANIFEST_DIR").expect("cargo names the folder"));
    let folder = folder(&manifest);
    let archive = folder.join(ARCHIVE);
    println!("cargo:rerun-if-changed={}", archive.display());
    // An absolute path: the linker runs in another folder than this one.
    let Ok(found) = archive.canonicalize() else {
        eprintln!(
            "gentianlathe: no {ARCHIVE} in '{}'. In the repository's folder, 'tools/build capi' proves and writes \
             it to target/staticlib; or name the folder that has it in {VARIABLE}, by an absolute path.",
            folder.display()
        );
        exit(1);
    };
    let found = found.parent().expect("a file is in a folder");
    println!("cargo:rustc-link-search=native={}", found.display());
    println!("cargo:rustc-link-lib=static=capi");
}
