//! Links the planner's archive and the factoring's, which the repository's own tool builds.
use std::path::{Path, PathBuf};
use std::{env, process};

const LIBRARIES: [&str; 2] = ["ndplan", "ndfactor"];

fn main() {
    let package = env::var("CARGO_MANIFEST_DIR").unwrap_or_else(|_| ".".into());
    let folder = Path::new(&package).join("../../target/staticlib");
    let archive = |library: &str| -> PathBuf { folder.join(format!("lib{library}.a")) };
    for library in LIBRARIES {
        println!("cargo:rerun-if-changed={}", archive(library).display());
    }
    for library in LIBRARIES {
        if !archive(library).is_file() {
            let missing = archive(library);
            eprintln!("{} is missing: run `tools/staticlib {library}` in the repository's root", missing.display());
            process::exit(1);
        }
    }
    println!("cargo:rustc-link-search=native={}", folder.display());
    for library in LIBRARIES {
        println!("cargo:rustc-link-lib=static={library}");
    }
}
