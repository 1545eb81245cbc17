//! Links our planner's archive where PLANNER_LIB names its folder; else all is built without our planner.

use std::path::Path;

fn main() {
    println!("cargo::rustc-check-cfg=cfg(ours)");
    println!("cargo::rerun-if-env-changed=PLANNER_LIB");
    println!("cargo::rerun-if-changed=build.rs");
    let Ok(folder) = std::env::var("PLANNER_LIB") else {
        return;
    };
    let archive = Path::new(&folder).join("libgpu_planner.a");
    if !archive.is_file() {
        println!(
            "cargo::error=PLANNER_LIB: there is no {}",
            archive.display()
        );
        return;
    }
    println!("cargo::rerun-if-changed={}", archive.display());
    println!("cargo::rustc-link-search=native={folder}");
    println!("cargo::rustc-link-lib=static=gpu_planner");
    println!("cargo::rustc-cfg=ours");
}
