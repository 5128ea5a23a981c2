//! Writes the fixed vectors: the file of calls, and the lists of calls that a page can spell as
//! pages with their answers. Needs the published source.

use oracle::{published, sheet, vectors};
use std::{fs, io, path::Path, process::ExitCode};

fn write(folder: &Path) -> io::Result<()> {
    fs::create_dir_all(folder)?;
    for entry in fs::read_dir(folder)? {
        let path = entry?.path();
        if path
            .extension()
            .is_some_and(|end| end == "page" || end == "answers")
        {
            fs::remove_file(path)?;
        }
    }
    for sample in sheet::samples(&mut published::check) {
        fs::write(folder.join(format!("{}.page", sample.name)), sample.page)?;
        fs::write(
            folder.join(format!("{}.answers", sample.name)),
            sample.answers,
        )?;
    }
    fs::write(
        folder.join(vectors::FILE),
        vectors::text(&mut published::check),
    )
}

fn main() -> ExitCode {
    if !oracle::SOURCE {
        eprintln!("no source: nothing written");
        return ExitCode::FAILURE;
    }
    match write(Path::new(vectors::FOLDER)) {
        Ok(()) => ExitCode::SUCCESS,
        Err(error) => {
            eprintln!("{error}");
            ExitCode::FAILURE
        }
    }
}
