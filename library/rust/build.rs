//! Links the archive of the proved planner, from the folder that GPU_PLANNER_LIB names or else from target/staticlib of this repository.

use std::env::var_os;
use std::path::PathBuf;
use std::process::exit;

/// The only machine that the archive of the repository is made for; one that is named may be made for another.
const MACHINE: [(&str, &str); 2] = [
    ("CARGO_CFG_TARGET_ARCH", "x86_64"),
    ("CARGO_CFG_TARGET_OS", "linux"),
];

fn main() {
    println!("cargo:rerun-if-env-changed=GPU_PLANNER_LIB");
    // a build script runs in the folder of its Cargo.toml, and so a relative folder is meant from there
    let named = var_os("GPU_PLANNER_LIB").map(PathBuf::from);
    let other = |&(name, wanted): &(&str, &str)| var_os(name).is_none_or(|found| found != wanted);
    if named.is_none() && MACHINE.iter().any(other) {
        stop("libgpu_planner.a links into x86-64 Linux programs alone");
    }
    let folder = named.unwrap_or_else(|| PathBuf::from("../../target/staticlib"));
    let archive = folder.join("libgpu_planner.a");
    let Ok(archive) = archive.canonicalize() else {
        stop(&format!(
            "no {}: run `library/archive`, or name its folder in GPU_PLANNER_LIB",
            archive.display()
        ));
    };
    println!("cargo:rerun-if-changed={}", archive.display());
    if let Some(folder) = archive.parent() {
        println!("cargo:rustc-link-search=native={}", folder.display());
    }
    println!("cargo:rustc-link-lib=static=gpu_planner");
}

fn stop(what: &str) -> ! {
    eprintln!("gpu-planner: {what}");
    exit(1)
}
