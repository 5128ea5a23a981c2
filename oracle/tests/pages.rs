//! The sample pages and the pages among the vectors have the answers of the published Rust, or of
//! the plain check where its source is not there.

use oracle::{sheet, vectors};
use std::{fs, path::Path};

const PAGES: &str = concat!(env!("CARGO_MANIFEST_DIR"), "/../pages");

/// The files of a folder with this ending, without it, in order.
fn names(folder: &str, end: &str) -> Vec<String> {
    let mut names = vec![];
    for entry in fs::read_dir(folder).expect(folder) {
        let name = entry.unwrap().file_name().into_string().unwrap();
        if let Some(name) = name.strip_suffix(end) {
            names.push(name.to_string());
        }
    }
    names.sort();
    names
}

fn file(folder: &str, name: &str, end: &str) -> String {
    fs::read_to_string(Path::new(folder).join(format!("{name}{end}"))).expect(name)
}

/// A sample page that is refused as a whole says so in its name, before its first call.
#[test]
fn the_sample_pages_have_these_answers() {
    let names = names(PAGES, ".page");
    assert!(names.len() >= 10);
    for name in names {
        let (page, answers) = (file(PAGES, &name, ".page"), file(PAGES, &name, ".answers"));
        let refused = ["01", "02", "03", "10"];
        let number = refused
            .iter()
            .find(|n| name.starts_with(&format!("refused-{n}-")));
        let expected = match number {
            Some(number) => sheet::printed(&Err(number.parse().unwrap())),
            None => {
                let (puzzle, calls) = sheet::read(&page);
                assert_eq!(sheet::page(&puzzle, &calls), page, "{name}");
                sheet::answers(&puzzle, &calls, &mut oracle::check)
            }
        };
        assert_eq!(answers, expected, "{name}");
    }
}

#[test]
fn the_vectors_are_there_as_pages() {
    let samples = sheet::samples(&mut oracle::check);
    assert!(samples.len() >= 50);
    let written: Vec<&str> = samples.iter().map(|sample| sample.name.as_str()).collect();
    assert_eq!(
        names(vectors::FOLDER, ".page"),
        written,
        "run the program `vectors`"
    );
    assert_eq!(names(vectors::FOLDER, ".answers"), written);
    for sample in &samples {
        assert_eq!(
            file(vectors::FOLDER, &sample.name, ".page"),
            sample.page,
            "{}",
            sample.name
        );
        assert_eq!(
            file(vectors::FOLDER, &sample.name, ".answers"),
            sample.answers,
            "{}",
            sample.name
        );
    }
}
