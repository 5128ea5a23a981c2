//! Pages for the trials of the page program (`../tools/page_trials`):
//!
//!     cargo run --release --bin pages -- write N SEED DIR    N generated pages with their answers
//!     cargo run --release --bin pages -- drafts N SEED DIR   N drafts, clues of every size, likewise
//!     cargo run --release --bin pages -- answer FILE..       the answers beside accepted pages
//!     cargo run --release --bin pages -- vectors02 DIR       the vectors of document 02 as pages
//!
//! The answers are those of the published Rust, later repeats struck, or of the plain check where its
//! source is not there; those of the vectors of document 02 are the vectors' own.

use oracle::book::{Answer, Call, ALIEN, PLACES};
use oracle::page::Board;
use oracle::random::Random;
use oracle::vectors02::{self, Replied};
use oracle::{blocked, drafts, generate, sheet};
use std::path::{Path, PathBuf};
use std::{env, fs, process::ExitCode};

/// The board's literals, with checks, undos and unfit calls between them, and a check at the end.
fn calls(random: &mut Random, board: &Board) -> Vec<Call> {
    let mut calls = vec![];
    let borders = board.puzzle.borders();
    let among = random.between(0, 40);
    for &literal in &board.decided {
        while random.chance(among) {
            calls.push(match random.below(8) {
                0 => Call::Decide((borders + random.below(3), random.chance(50))),
                1 if borders > 0 => Call::Decide((random.below(borders), random.chance(50))),
                2 => Call::Decide((2_147_483_647, true)),
                3 | 4 => Call::Undo,
                _ => Call::Check(PLACES),
            });
        }
        calls.push(Call::Decide(literal));
    }
    calls.push(Call::Check(PLACES));
    calls
}

/// A generated board; three sizes and boards with many repeats take turns.
fn generated(random: &mut Random, turn: usize) -> Board {
    let side = match turn % 10 {
        0 => 32,
        1..=3 => 10,
        4 => return blocked::board(random, turn / 10),
        _ => 5,
    };
    generate::board(random, side, side)
}

/// A page with its answers.
fn put(folder: &Path, name: &str, page: String, answers: String) -> std::io::Result<()> {
    let path = folder.join(name);
    fs::write(path.with_extension("page"), page)?;
    fs::write(path.with_extension("answers"), answers)
}

fn write(
    made: fn(&mut Random, usize) -> Board,
    count: usize,
    seed: u64,
    folder: &Path,
) -> std::io::Result<()> {
    let mut random = Random::new(seed);
    fs::create_dir_all(folder)?;
    for number in 0..count {
        let board = made(&mut random, number);
        let calls = calls(&mut random, &board);
        let page = sheet::page(&board.puzzle, &calls);
        let answers = sheet::answers(&board.puzzle, &calls, &mut oracle::check);
        put(folder, &format!("{number:05}"), page, answers)?;
    }
    Ok(())
}

/// The vectors of document 02 as pages, without the calls that no page has.
fn vectors(folder: &Path) -> std::io::Result<()> {
    fs::create_dir_all(folder)?;
    let (makes, scripts) = vectors02::flat().unwrap_or_default();
    for make in makes {
        let answers = make.refusal.map_or(Ok(vec![]), Err);
        let page = sheet::page(&make.puzzle, &[]);
        put(folder, &make.id, page, sheet::printed(&answers))?;
    }
    for script in scripts {
        // A call whose lent record is taken is answered as one that is lent none.
        let spelled =
            |one: &Replied| sheet::has(&one.asked.call) && one.answer != Answer::Refused(ALIEN);
        let calls = script.calls.into_iter().filter(spelled);
        let (calls, answers): (Vec<Call>, _) =
            calls.map(|one| (one.asked.call, one.answer)).unzip();
        let page = sheet::page(&script.puzzle, &calls);
        put(folder, &script.id, page, sheet::printed(&Ok(answers)))?;
    }
    Ok(())
}

fn answer(files: &[&str]) -> std::io::Result<()> {
    for file in files {
        let path = PathBuf::from(file);
        let (puzzle, calls) = sheet::read(&fs::read_to_string(&path)?);
        let answers = sheet::answers(&puzzle, &calls, &mut oracle::check);
        fs::write(path.with_extension("answers"), answers)?;
    }
    Ok(())
}

fn main() -> ExitCode {
    let words: Vec<String> = env::args().skip(1).collect();
    let words: Vec<&str> = words.iter().map(String::as_str).collect();
    let done = match words[..] {
        [kind @ ("write" | "drafts"), count, seed, folder] => {
            let made = [generated, drafts::draft][usize::from(kind == "drafts")];
            let count = count.parse().expect("how many pages");
            write(
                made,
                count,
                seed.parse().expect("a seed"),
                Path::new(folder),
            )
        }
        ["vectors02", folder] => vectors(Path::new(folder)),
        ["answer", ref files @ ..] => answer(files),
        _ => return ExitCode::FAILURE,
    };
    match done {
        Ok(()) => ExitCode::SUCCESS,
        Err(error) => {
            eprintln!("{error}");
            ExitCode::FAILURE
        }
    }
}
