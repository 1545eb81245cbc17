//! Lays the original's files, their sums checked, and our shims side by side in one folder for the compiler.

mod sha256;

use std::path::{Path, PathBuf};
use std::{env, fs};

fn main() {
    println!("cargo::rustc-check-cfg=cfg(original, ordered)");
    println!("cargo::rerun-if-env-changed=JANUS_SRC");
    println!("cargo::rerun-if-env-changed=CI");
    let home = Path::new(&variable("CARGO_MANIFEST_DIR")).join("..");
    let ordered = variable("CARGO_PKG_NAME") == "original-ordered";
    if ordered {
        println!("cargo::rustc-cfg=ordered");
    }
    let sources = sources(&home);
    watch(&sources);
    if sources.is_dir() {
        lay(&home, &sources, ordered);
        println!("cargo::rustc-cfg=original");
    } else {
        say_absent(&sources);
    }
}

/// Cargo fails the build because of the message, and shows nothing else when the script itself ends well.
fn fail(text: &str) -> ! {
    println!("cargo::error={text}");
    std::process::exit(0)
}

fn variable(name: &str) -> String {
    env::var(name).unwrap_or_else(|_| panic!("{name} is not set"))
}

/// A relative JANUS_SRC is taken from the project's root, as the usual place is.
fn sources(home: &Path) -> PathBuf {
    let place = env::var("JANUS_SRC").unwrap_or_else(|_| "../shared/docs/src".to_string());
    home.join("../..").join(place)
}

/// Without the original only the two programs of ours can be compared; the checks on every change must not miss it.
fn say_absent(sources: &Path) {
    let place = sources.display();
    if env::var("CI").as_deref() == Ok("true") {
        fail(&format!(
            "the original is not at {place}, and CI=true demands it"
        ));
    }
    println!("cargo::warning=the original is not at {place}: built without it (JANUS_SRC names its folder)");
}

fn lay(home: &Path, sources: &Path, ordered: bool) {
    let folder = Path::new(&variable("OUT_DIR")).join("laid");
    if folder.exists() {
        fs::remove_dir_all(&folder).expect("the old folder is removed");
    }
    fs::create_dir(&folder).expect("the folder is made");
    lay_shims(&home.join("shims"), &folder);
    if ordered {
        lay_shims(&home.join("shims/ordered"), &folder);
    }
    lay_original(&home.join("SUMS"), sources, &folder, ordered);
}

fn lay_shims(shims: &Path, folder: &Path) {
    watch(shims);
    for entry in fs::read_dir(shims).expect("the shims are read") {
        let path = entry.expect("a shim is listed").path();
        if path.extension().is_some_and(|end| end == "rs") {
            watch(&path);
            put(folder, &path, &read(&path));
        }
    }
}

/// Every file is checked, also the events that the ordered build replaces.
fn lay_original(sums: &Path, sources: &Path, folder: &Path, ordered: bool) {
    watch(sums);
    let sums = String::from_utf8(read(sums)).expect("SUMS is text");
    for line in sums.lines() {
        let (sum, name) = line.split_once("  ").expect("a sum, two spaces, a name");
        let path = sources.join(name);
        watch(&path);
        let bytes = read(&path);
        if sha256::hex(&bytes) != sum {
            fail(&format!("the SHA-256 of {name} is not the one in SUMS"));
        }
        if !(ordered && name.ends_with("/events.rs")) {
            put(folder, &path, &bytes);
        }
    }
}

fn watch(path: &Path) {
    println!("cargo::rerun-if-changed={}", path.display());
}

fn read(path: &Path) -> Vec<u8> {
    fs::read(path).unwrap_or_else(|error| fail(&format!("{}: {error}", path.display())))
}

/// No file may take the place of another: a shim must never hide a file of the original.
fn put(folder: &Path, from: &Path, bytes: &[u8]) {
    let to = folder.join(from.file_name().expect("a file has a name"));
    assert!(!to.exists(), "{} would be laid twice", to.display());
    fs::write(&to, bytes).unwrap_or_else(|error| panic!("{}: {error}", to.display()));
}
