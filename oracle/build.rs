// Finds the folder of the published source and tells the compiler where it is.
// DBCHOCO_SRC names the folder; without it, ../../shared/docs/src is tried.

use std::env;
use std::path::{Path, PathBuf};

const FILES: [&str; 3] = [
    "cspuz_rs_puzzles/src/puzzles/dbchoco.rs",
    "cspuz_rs_puzzles/src/util.rs",
    "cspuz_core/src/custom_constraints.rs",
];

fn folder() -> PathBuf {
    match env::var_os("DBCHOCO_SRC") {
        Some(named) => PathBuf::from(named),
        None => {
            let package = env::var_os("CARGO_MANIFEST_DIR").expect("cargo sets this");
            Path::new(&package).join("../../shared/docs/src")
        }
    }
}

fn main() {
    println!("cargo::rustc-check-cfg=cfg(source)");
    println!("cargo::rustc-check-cfg=cfg(feature, values(\"experimental-backend-glucose-rs\"))");
    println!("cargo::rerun-if-env-changed=DBCHOCO_SRC");
    println!("cargo::rerun-if-changed=build.rs");
    let folder = folder();
    for file in FILES {
        println!("cargo::rerun-if-changed={}", folder.join(file).display());
    }
    let whole = FILES.iter().all(|file| folder.join(file).is_file());
    let Ok(found) = folder.canonicalize() else {
        return;
    };
    if whole {
        println!("cargo::rustc-cfg=source");
        println!("cargo::rustc-env=ORACLE_SOURCE={}", found.display());
    }
}
