//! The file of vectors is what its program writes, and covers what it has to.

mod common;

use common::skipped;
use oracle::{plain, published, vectors};
use std::collections::BTreeSet;
use std::{fs, path::Path};

#[test]
fn the_file_is_as_written() {
    if skipped() {
        return;
    }
    let path = Path::new(vectors::FOLDER).join(vectors::FILE);
    let file = fs::read_to_string(path).expect("vectors are written");
    assert!(
        file == vectors::text(&mut published::check),
        "the vectors are stale: run the program `vectors`"
    );
    assert!(file.len() < 80_000 && file.is_ascii());
}

/// Where no source is at hand the file's answers are held against the plain check.
#[test]
fn the_plain_check_gives_the_file() {
    let path = Path::new(vectors::FOLDER).join(vectors::FILE);
    let file = fs::read_to_string(path).expect("vectors are written");
    assert!(file == vectors::text(&mut plain::reason));
}

#[test]
fn the_file_covers_every_answer() {
    let path = Path::new(vectors::FOLDER).join(vectors::FILE);
    let file = fs::read_to_string(path).expect("vectors are written");
    let answers: BTreeSet<&str> = file.lines().filter(|line| line.starts_with("9 ")).collect();
    for number in 0..=9 {
        assert!(answers.contains(format!("9 {number}").as_str()), "{number}");
    }
    let lent = file.matches("\n6 ").count();
    assert!(lent > 50 && lent == file.matches("\n12 ").count());
    assert!(file.contains("\n10 0\n") && file.contains("\n11 0\n"));
    let boards = file.matches("\n1 ").count();
    assert!((40..=90).contains(&boards), "{boards}");
}
