//! A tiny solver around the checker: it finds every solution of a page.
//!
//!     cargo run --release --offline --example solve                 a page of its own
//!     cargo run --release --offline --example solve -- FILE         a page from a file
//!
//! A file has one line for each row of cells, and a cell is its colour, 0 or 1, and its clue if it has one, as in
//! `0 0=2 1 1`.
//!
//! What it shows: borders are decided one by one, and the board is checked after each. A conflict's reason is printed
//! and kept, and no border is tried on a side that would complete a reason found before. The last line counts what was
//! found and how many checks it took, beside the number of full settings. The search itself is plain and slow: it is
//! the use of the interface that is meant to be read.

use dbchoco::{Answer, Board, Literal, Side};
use std::error::Error;

const PAGE: &str = "0 0 1\n1=3 0 1\n1 1 0\n1 0 0\n";

/// The board of a page's text.
fn board(text: &str) -> Result<Board, Box<dyn Error>> {
    let rows: Vec<Vec<&str>> = text
        .lines()
        .map(|row| row.split_whitespace().collect())
        .collect();
    let width = rows.first().map_or(0, Vec::len);
    if rows.iter().any(|row| row.len() != width) {
        return Err("the rows are not all of one length".into());
    }
    let (mut colours, mut clues) = (vec![], vec![]);
    for cell in rows.concat() {
        let (colour, clue) = match cell.split_once('=') {
            Some((colour, clue)) => (colour, clue.parse()?),
            None => (cell, -1),
        };
        colours.push(colour.parse()?);
        clues.push(clue);
    }
    Ok(Board::fresh(rows.len(), width, &colours, &clues)?)
}

/// What the search keeps.
#[derive(Default)]
struct Search {
    learned: Vec<Vec<Literal>>,
    solutions: usize,
    checks: usize,
}

impl Search {
    /// Whether a reason found before would be complete with this literal.
    fn ruled_out(&self, board: &Board, literal: Literal) -> bool {
        let stands =
            |other: &Literal| *other == literal || board.side(other.border) == Some(other.side);
        self.learned.iter().any(|reason| reason.iter().all(stands))
    }

    /// Decides this border and those after it in every way that no reason rules out.
    fn from(&mut self, board: &mut Board, border: usize) -> Result<(), Box<dyn Error>> {
        for side in [Side::Wall, Side::Open] {
            let literal = Literal { border, side };
            if self.ruled_out(board, literal) {
                continue;
            }
            board.decide(border, side)?;
            self.checks += 1;
            match board.check() {
                Answer::Pass { undecided: 0 } => {
                    self.solutions += 1;
                    println!("\nsolution {}:\n{}", self.solutions, drawn(board));
                }
                Answer::Pass { .. } => self.from(board, border + 1)?,
                Answer::Conflict(reason) => {
                    println!("reason: {reason}");
                    self.learned.push(reason.to_vec());
                }
            }
            board.undo()?;
        }
        Ok(())
    }
}

/// The page with its walls.
fn drawn(board: &Board) -> String {
    let (h, w) = (board.height(), board.width());
    let wall = |border: Option<usize>| match border {
        None => true,
        Some(border) => board.side(border) == Some(Side::Wall),
    };
    let mut text = format!("+{}\n", "---+".repeat(w));
    for y in 0..h {
        text.push('|');
        for x in 0..w {
            let colour = board.colour(y, x).unwrap_or(0);
            let right = if wall(board.right_of(y, x)) { '|' } else { ' ' };
            text.push_str(&format!(" {colour} {right}"));
        }
        text.push_str("\n+");
        for x in 0..w {
            let line = if wall(board.below(y, x)) {
                "---+"
            } else {
                "   +"
            };
            text.push_str(line);
        }
        text.push('\n');
    }
    text
}

/// The search over all borders of a board.
fn search(board: &mut Board) -> Result<Search, Box<dyn Error>> {
    let mut search = Search::default();
    match board.check() {
        Answer::Pass { undecided: 0 } => search.solutions = 1,
        Answer::Pass { .. } => search.from(board, 0)?,
        Answer::Conflict(reason) => println!("no solution at all: the reason [{reason}] is empty"),
    }
    Ok(search)
}

fn main() -> Result<(), Box<dyn Error>> {
    let text = match std::env::args().nth(1) {
        Some(file) => std::fs::read_to_string(file)?,
        None => PAGE.to_string(),
    };
    let mut board = board(&text)?;
    let found = search(&mut board)?;
    println!(
        "solutions {}, reasons {}, checks {}, full settings 2^{}",
        found.solutions,
        found.learned.len(),
        found.checks,
        board.borders()
    );
    Ok(())
}

#[test]
fn solutions_are_counted() {
    for (page, solutions) in [
        (PAGE, 1),
        ("0 1\n", 1),
        ("0 0\n", 0),
        ("0 1 0\n1 0 1\n", 3),
        ("0 1=2\n", 0),
    ] {
        let found = search(&mut board(page).unwrap()).unwrap();
        assert_eq!(found.solutions, solutions, "{page}");
    }
}
