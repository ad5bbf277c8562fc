//! Compiles the plain C program of `bench/`, and the C interface's text of a refusal, into an archive of their own.
use std::path::{Path, PathBuf};
use std::process::Command;
use std::{env, fs};

const SOURCES: [&str; 9] = [
    "bench/plain_plan.c",
    "bench/plain_checks.c",
    "bench/plain_file.c",
    "bench/plain_text.c",
    "bench/plain_join.c",
    "bench/plain_factor.c",
    "bench/plain_solve.c",
    "bench/plain_held.c",
    "bindings/rust/plain/src/text.c",
];
const HEADERS: [&str; 4] = ["bench/plain.h", "bench/plain_checks.h", "include/ndplan.h", "include/ndfactor.h"];

fn main() {
    let root = Path::new(&env::var("CARGO_MANIFEST_DIR").unwrap()).join("../../..");
    let out = PathBuf::from(env::var("OUT_DIR").unwrap());
    for file in SOURCES.iter().chain(&HEADERS) {
        println!("cargo:rerun-if-changed={}", root.join(file).display());
    }
    let objects: Vec<PathBuf> = SOURCES.iter().map(|source| compiled(&root, &out, source)).collect();
    let archive = out.join("libplain_c.a");
    let _ = fs::remove_file(&archive);
    run(Command::new("ar").arg("rcs").arg(&archive).args(&objects));
    println!("cargo:rustc-link-search=native={}", out.display());
    println!("cargo:rustc-link-lib=static=plain_c");
}

fn compiled(root: &Path, out: &Path, source: &str) -> PathBuf {
    let object = out.join(Path::new(source).with_extension("o").file_name().unwrap());
    let mut command = Command::new(env::var("CC").unwrap_or("cc".into()));
    command
        .args(["-c", "-std=c11", "-O2", "-ffp-contract=off", "-Wall", "-Wextra"])
        .arg(root.join(source))
        .arg("-o")
        .arg(&object);
    run(command.arg("-I").arg(root.join("include")).arg("-I").arg(root.join("bench")));
    object
}

fn run(command: &mut Command) {
    let status = command.status().unwrap_or_else(|error| panic!("{command:?}: {error}"));
    assert!(status.success(), "{command:?}: {status}");
}
