//! Finds the static library that is compared.

use std::env;
use std::path::PathBuf;

const VARIABLE: &str = "GENTIANLATHE_LIB_DIR";
const DEFAULT: &str = "../../target/staticlib";

fn main() {
    println!("cargo:rerun-if-changed=build.rs");
    println!("cargo:rerun-if-env-changed={VARIABLE}");
    let manifest = PathBuf::from(env::var("CARGO_MANIFEST_DIR").unwrap());
    let named = env::var_os(VARIABLE).filter(|name| !name.is_empty());
    let folder = manifest.join(named.unwrap_or_else(|| DEFAULT.into()));
    let library = folder.join("libcapi.a");
    if !library.is_file() {
        eprintln!(
            "{} is not there. Prove and build it by `tools/build capi` in the repository's folder, \
             or name the folder of another libcapi.a in {VARIABLE}.",
            library.display()
        );
        std::process::exit(1);
    }
    println!("cargo:rerun-if-changed={}", library.display());
    println!("cargo:rustc-link-search=native={}", folder.display());
    println!("cargo:rustc-link-lib=static=capi");
}
