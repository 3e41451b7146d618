//! Finds the Rust that is ported and writes the module list that names its files in place.
//!
//! Three of the modules have a child module of ours beside what their file holds. A child sees what
//! its parent keeps private, so the state of a controller can be read and set while the files stay
//! as they were published.

use std::env;
use std::fs;
use std::path::{Path, PathBuf};

const VARIABLE: &str = "SKELETAL_ANIMATION_SRC";
const BESIDE: &str = "../shared/docs/src";

/// The six files, a name a line. The gate (.ci/run) reads the same list and looks in the same places.
const FILES: &str = include_str!("files.txt");

/// The modules that have a child `access`, each in a file of `src/access`.
const WITH_ACCESS: [&str; 3] = ["animation", "blend_tree", "controller"];

/// Those of the six files that are not in `folder`.
fn lacking(folder: &Path) -> Vec<PathBuf> {
    let paths = FILES.lines().map(|name| folder.join(name));
    paths.filter(|path| !path.is_file()).collect()
}

/// The folder that holds all six files: the `src` of `folder`, or `folder` itself; or else what it lacks.
fn sources_in(folder: &Path) -> Result<PathBuf, Vec<PathBuf>> {
    let inner = folder.join("src");
    for candidate in [inner.as_path(), folder].iter() {
        if lacking(candidate).is_empty() {
            return Ok(candidate.canonicalize().unwrap());
        }
    }
    Err(lacking(if inner.is_dir() { &inner } else { folder }))
}

/// The module as an item of the crate: its file alone, or its file and the child `access`.
fn module(name: &str, path: &Path, manifest: &Path) -> String {
    if !WITH_ACCESS.contains(&name) {
        return format!("#[path = {:?}]\npub mod {};\n", path, name);
    }
    let access = manifest.join("src/access").join(name).with_extension("rs");
    println!("cargo:rerun-if-changed={}", access.display());
    format!(
        "pub mod {} {{\n    include!({:?});\n    #[path = {:?}]\n    pub mod access;\n}}\n",
        name, path, access
    )
}

fn main() {
    println!("cargo:rerun-if-changed=build.rs");
    println!("cargo:rerun-if-changed=files.txt");
    println!("cargo:rerun-if-env-changed={}", VARIABLE);
    let manifest = PathBuf::from(env::var("CARGO_MANIFEST_DIR").unwrap());
    let repository = manifest.join("../..");
    let named = env::var_os(VARIABLE).filter(|name| !name.is_empty());
    let folder = match named {
        Some(name) => repository.join(name),
        None => repository.join(BESIDE),
    };
    let sources = sources_in(&folder).unwrap_or_else(|lacks| {
        eprintln!(
            "{} is not there. Name the folder of skeletal_animation's six source files in {}, \
             or put them at {} beside the repository's folder.",
            lacks[0].display(),
            VARIABLE,
            BESIDE
        );
        std::process::exit(1);
    });
    let mut list = String::new();
    for file in FILES.lines() {
        let path = sources.join(file);
        println!("cargo:rerun-if-changed={}", path.display());
        list += &module(file.trim_end_matches(".rs"), &path, &manifest);
    }
    let out = Path::new(&env::var("OUT_DIR").unwrap()).join("modules.rs");
    fs::write(out, list).unwrap();
}
