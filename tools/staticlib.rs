// What the build scripts of host/ and oracle/compare/ have in common: links the static libraries of crates. tools/build
// proves and makes those that are missing or of other files; one build waits there for another, and it shows on the
// terminal how far it is, since cargo keeps a build script's output.

use std::env;
use std::path::{Path, PathBuf};
use std::process::{Command, Stdio};

/// The nearest folder above the package that has the list of crates.
fn repository() -> PathBuf {
    let package = env::var_os("CARGO_MANIFEST_DIR").expect("cargo sets this");
    let mut above = Path::new(&package).ancestors();
    let root = above.find(|folder| folder.join("crates.txt").is_file());
    root.expect("the repository's root, which has crates.txt")
        .to_path_buf()
}

fn build(root: &Path, names: &[&str]) {
    let program = root.join("tools/build");
    let run = Command::new(&program)
        .args(["--terminal", "library"])
        .args(names)
        .stdin(Stdio::null())
        .stdout(Stdio::null())
        .status();
    match run {
        Err(error) => panic!("cannot run {}: {error}", program.display()),
        Ok(status) => assert!(status.success(), "tools/build library: {status}"),
    }
}

/// The files and folders that the crates are made of. What rt keeps in out/ changes with each of its runs.
fn sources(root: &Path) -> Vec<PathBuf> {
    let entries = |folder: PathBuf| {
        let read = folder.read_dir().expect("a folder that can be read");
        read.map(|entry| entry.expect("an entry").path())
    };
    let crates = entries(root.join("crates")).filter(|path| path.is_dir());
    let parts = crates.flat_map(entries);
    parts.filter(|path| !path.ends_with("out")).collect()
}

/// Finds or makes the static libraries of crates, tells cargo to link them, and gives the folder that has them.
pub fn link(names: &[&str]) -> PathBuf {
    let root = repository();
    let folder = root.join("target/staticlib");
    println!("cargo::rerun-if-changed=build.rs");
    for path in ["tools/staticlib.rs", "tools/build", "crates.txt"] {
        println!("cargo::rerun-if-changed={}", root.join(path).display());
    }
    for path in sources(&root) {
        println!("cargo::rerun-if-changed={}", path.display());
    }
    build(&root, names);
    println!("cargo::rustc-link-search=native={}", folder.display());
    for name in names {
        let library = folder.join(format!("lib{name}.a"));
        println!("cargo::rerun-if-changed={}", library.display());
        println!("cargo::rustc-link-lib=static={name}");
    }
    folder
}
