//! Prints N generated boards of at most 5x5 with the published answers, later repeats struck, and the
//! published transforms:
//!
//!     cargo run --release --bin sample -- N [seed]
//!
//! A line is a word and numbers with one space between them. A board is these lines:
//!
//!     board h w
//!     colours c ..              by cell
//!     clues n ..                by cell, -1 is none
//!     borders s ..              by border: 0 undecided, 1 wall, 2 open
//!     pass n                    the answer: n undecided borders
//!     conflict code ..          or this: 2 times the border, plus 1 for wall
//!     unit number n             for each unit by number: n listed transforms, then n times
//!     cells y x y x ..          a transform's cells
//!     connections y x y x ..    and its connections, in doubled coordinates
//!     end
//!
//! The boards go through all branches of the check, pass, and all six lists of transforms by turns.

use oracle::page::{code, Board, Kind, Place, State};
use oracle::plain::{self, View, BRANCHES};
use oracle::published::Published;
use oracle::random::Random;
use oracle::{generate, pieces, shapes};
use std::process::ExitCode;

/// What the next board has to show.
const KINDS: usize = BRANCHES.len() + 1 + shapes::LISTS.len();

fn shows(board: &Board, kind: usize) -> bool {
    if kind < BRANCHES.len() {
        return plain::check(board).is_some_and(|hit| hit.branch == BRANCHES[kind]);
    }
    if kind == BRANCHES.len() {
        return plain::check(board).is_none();
    }
    let list = shapes::LISTS[kind - BRANCHES.len() - 1];
    let units = View::new(board).units.lists;
    let rows = |cells: &Vec<usize>| shapes::listed_rows(&shapes::shape(&board.puzzle, cells));
    units.iter().any(|cells| rows(cells) == list)
}

fn next(random: &mut Random, kind: usize) -> Board {
    loop {
        let board = if kind > BRANCHES.len() {
            let piece = pieces::CLASSES[kind - BRANCHES.len() - 1];
            let (h, w) = (random.between(2, 5), random.between(2, 5));
            generate::unit_board(random, h, w, piece)
        } else {
            Some(generate::board(random, 5, 5))
        };
        match board {
            Some(board) if shows(&board, kind) => return board,
            _ => {}
        }
    }
}

fn line(word: &str, numbers: impl IntoIterator<Item = i64>) {
    let numbers: Vec<String> = numbers.into_iter().map(|n| format!(" {n}")).collect();
    println!("{word}{}", numbers.concat());
}

fn places(word: &str, places: &[Place]) {
    let flat = places.iter().flat_map(|&(y, x)| [y, x]);
    line(word, flat.map(i64::from));
}

fn print(board: &Board) {
    let puzzle = &board.puzzle;
    let mut made = Published::new(puzzle.h, puzzle.w, &puzzle.colours, &puzzle.clues);
    for &(border, wall) in &board.decided {
        made.decide(border, wall);
    }
    line("board", [puzzle.h as i64, puzzle.w as i64]);
    line("colours", puzzle.colours.iter().copied().map(i64::from));
    line("clues", puzzle.clues.iter().copied().map(i64::from));
    let state = |state: State| match state {
        State::Undecided => 0,
        State::Wall => 1,
        State::Open => 2,
    };
    line("borders", board.states().into_iter().map(state));
    match made.check() {
        None => line("pass", [board.undecided() as i64]),
        Some(reason) => line("conflict", reason.iter().map(|l| code(l) as i64)),
    }
    for unit in 0..made.groups(Kind::Units).lists.len() {
        let transforms = made.transforms(unit);
        line("unit", [unit as i64, transforms.len() as i64]);
        for (cells, connections) in transforms {
            places("cells", &cells);
            places("connections", &connections);
        }
    }
    println!("end");
}

fn main() -> ExitCode {
    let mut arguments = std::env::args().skip(1).map(|word| word.parse::<u64>());
    let (Some(Ok(count)), Ok(seed)) = (arguments.next(), arguments.next().unwrap_or(Ok(1))) else {
        eprintln!("sample N [seed]");
        return ExitCode::FAILURE;
    };
    if !oracle::SOURCE {
        eprintln!("no source: nothing to print");
        return ExitCode::FAILURE;
    }
    let mut random = Random::new(seed);
    for i in 0..count as usize {
        print(&next(&mut random, i % KINDS));
    }
    ExitCode::SUCCESS
}
