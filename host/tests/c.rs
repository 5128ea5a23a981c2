//! The header, the C example and a C test of making an image, by the C compiler.

use std::path::{Path, PathBuf};
use std::process::Command;

const HERE: &str = env!("CARGO_MANIFEST_DIR");
const STRICT: [&str; 4] = ["-Wall", "-Wextra", "-pedantic", "-Werror"];

/// Runs a command, which must be successful, and gives what it prints.
fn run(command: &mut Command) -> String {
    let output = command.output().expect("the command is there");
    let errors = String::from_utf8_lossy(&output.stderr);
    let text = String::from_utf8_lossy(&output.stdout);
    assert!(output.status.success(), "{command:?}\n{errors}{text}");
    text.into_owned()
}

fn built(name: &str) -> PathBuf {
    Path::new(env!("CARGO_TARGET_TMPDIR")).join(name)
}

/// Compiles a C program of this folder, runs it, and gives what it prints.
fn printed(source: &str) -> String {
    let program = built(&source.replace('/', "_"));
    let compile = run(Command::new("cc")
        .args(["-std=c99", "-O2"])
        .args(STRICT)
        .args(["-I", HERE])
        .arg(Path::new(HERE).join(source))
        .arg(env!("DBCHOCO_LIBRARY"))
        .arg("-o")
        .arg(&program));
    assert_eq!(compile, "");
    run(&mut Command::new(program))
}

#[test]
fn the_c_example_prints_the_answers_of_document_01() {
    let answers = "(answers\n(pass 1)\n(conflict 0w)\n(pass 0)\n)\n";
    assert_eq!(printed("examples/page.c"), answers);
}

#[test]
fn an_image_made_and_one_that_the_host_writes_itself() {
    assert_eq!(printed("tests/fresh.c"), "right\n");
}

/// The header alone, in one language.
fn compile_header(compiler: &str, language: &str, standard: &str) {
    run(Command::new(compiler)
        .args(["-fsyntax-only", "-x", language, standard])
        .args(STRICT)
        .arg(Path::new(HERE).join("dbchoco.h")));
}

#[test]
fn the_header_is_c() {
    compile_header("cc", "c", "-std=c99");
}

#[test]
fn the_header_is_cpp() {
    if Command::new("c++").arg("--version").output().is_err() {
        println!("skipped: no C++ compiler");
        return;
    }
    compile_header("c++", "c++", "-std=c++11");
}
