//! Document 01's board image with document 02's tally, plainly: reading, the alien test, and the
//! calls on one.

use crate::book::{self, Check, ALIEN, BARE, BORDER, PLACES, SHORT, TAKEN};
use crate::page::{code, Board, Literal, Puzzle, Tally};
use std::mem;

pub const LENGTH: usize = 11_082;
const CELLS: usize = 1_024;
const BORDERS: usize = 1_984;
const COLOURS_AT: usize = 2;
const CLUES_AT: usize = COLOURS_AT + CELLS;
const BORDERS_AT: usize = CLUES_AT + 4 * CELLS;
const COUNT_AT: usize = BORDERS_AT + BORDERS;
const STACK_AT: usize = COUNT_AT + 2;
const TALLY_AT: usize = STACK_AT + 2 * BORDERS;

/// Where the parts of an image start, and its end: height and width, colours, clues, borders, stack
/// count, stack entries, tally.
pub const PARTS: [usize; 8] = [
    0, COLOURS_AT, CLUES_AT, BORDERS_AT, COUNT_AT, STACK_AT, TALLY_AT, LENGTH,
];

/// The image of a board.
pub fn write(board: &Board) -> Vec<u8> {
    let puzzle = &board.puzzle;
    let mut image = vec![0; LENGTH];
    image[0] = puzzle.h as u8;
    image[1] = puzzle.w as u8;
    for (cell, (&colour, clue)) in puzzle.colours.iter().zip(&puzzle.clues).enumerate() {
        image[COLOURS_AT + cell] = colour as u8;
        image[CLUES_AT + 4 * cell..][..4].copy_from_slice(&clue.to_le_bytes());
    }
    put(&mut image, COUNT_AT, board.decided.len());
    for (i, &(border, wall)) in board.decided.iter().enumerate() {
        image[BORDERS_AT + border] = if wall { 1 } else { 2 };
        put(&mut image, STACK_AT + 2 * i, border);
    }
    for (i, count) in board.tally().counts().into_iter().enumerate() {
        put(&mut image, TALLY_AT + 2 * i, count);
    }
    image
}

fn put(image: &mut [u8], at: usize, number: usize) {
    image[at..at + 2].copy_from_slice(&(number as u16).to_le_bytes());
}

/// A place of an image set to a number: the field by its name in the vectors of document 02, and for
/// an array the index.
pub fn set(image: &mut [u8], field: &str, index: usize, number: i64) {
    let (at, width) = match field {
        "h" => (0, 1),
        "w" => (1, 1),
        "col" => (COLOURS_AT + index, 1),
        "clue" => (CLUES_AT + 4 * index, 4),
        "bor" => (BORDERS_AT + index, 1),
        "cnt" => (COUNT_AT, 2),
        "stk" => (STACK_AT + 2 * index, 2),
        "tal" => (TALLY_AT + 2 * index, 2),
        _ => panic!("an image has no {field}"),
    };
    let bytes = number.to_le_bytes();
    image[at..at + width].copy_from_slice(&bytes[..width]);
    let kept = match (width, number < 0) {
        (4, true) => -1,
        _ => 0,
    };
    assert_eq!(number >> (8 * width), kept, "{field} holds no {number}");
}

fn get(image: &[u8], at: usize) -> usize {
    usize::from(u16::from_le_bytes([image[at], image[at + 1]]))
}

/// The tally that an image holds, whether or not it is that of its borders.
pub fn tally(image: &[u8]) -> Tally {
    [0, 2, 4].map(|at| get(image, TALLY_AT + at)).into()
}

/// The board of an image, or none if the image is alien: it is a board's exactly if its numbers are
/// in range and writing the board that they name gives the image back.
pub fn read(image: &[u8]) -> Option<Board> {
    if image.len() != LENGTH {
        return None;
    }
    let (h, w) = (usize::from(image[0]), usize::from(image[1]));
    let cells = (h * w).min(CELLS);
    let clue = |cell: usize| -> i32 {
        let bytes = &image[CLUES_AT + 4 * cell..][..4];
        i32::from_le_bytes(bytes.try_into().unwrap())
    };
    let puzzle = Puzzle {
        h,
        w,
        colours: (0..cells)
            .map(|c| i32::from(image[COLOURS_AT + c]))
            .collect(),
        clues: (0..cells).map(clue).collect(),
    };
    if book::refusal(&puzzle).is_some() || get(image, COUNT_AT) > puzzle.borders() {
        return None;
    }
    let stack: Vec<usize> = (0..get(image, COUNT_AT))
        .map(|i| get(image, STACK_AT + 2 * i))
        .collect();
    let mut seen = vec![false; puzzle.borders()];
    let mut once = |&border: &usize| border < seen.len() && !mem::replace(&mut seen[border], true);
    if !stack.iter().all(&mut once) {
        return None;
    }
    let side = |&border: &usize| (border, image[BORDERS_AT + border] == 1);
    let decided: Vec<Literal> = stack.iter().map(side).collect();
    let board = Board { puzzle, decided };
    (write(&board) == image).then_some(board)
}

/// Makes the fresh image of a puzzle in lent bytes.
pub fn fresh(image: &mut [u8], puzzle: &Puzzle) -> u32 {
    if let Some(number) = book::refusal(puzzle) {
        return number;
    }
    if image.len() != LENGTH {
        return ALIEN;
    }
    image.copy_from_slice(&write(&Board {
        puzzle: puzzle.clone(),
        decided: vec![],
    }));
    0
}

pub fn decide(image: &mut [u8], border: u32, side: u32) -> u32 {
    let Some(mut board) = read(image) else {
        return ALIEN;
    };
    let border = border as usize;
    if border >= board.puzzle.borders() {
        return BORDER;
    }
    if board.decided.iter().any(|literal| literal.0 == border) {
        return TAKEN;
    }
    board.decided.push((border, side != 0));
    image.copy_from_slice(&write(&board));
    0
}

pub fn undo(image: &mut [u8]) -> u32 {
    let Some(mut board) = read(image) else {
        return ALIEN;
    };
    if board.decided.pop().is_none() {
        return BARE;
    }
    image.copy_from_slice(&write(&board));
    0
}

/// A check writes its literals from the start of `memory`.
pub fn check(image: &[u8], memory: &mut [u8], check: &mut Check) -> u32 {
    let Some(board) = read(image) else {
        return ALIEN;
    };
    if memory.len() < 2 * PLACES {
        return SHORT;
    }
    match check(&board.puzzle, &board.decided) {
        None => 32 + board.undecided() as u32,
        Some(reason) => {
            for (i, literal) in reason.iter().enumerate() {
                put(memory, 2 * i, code(literal));
            }
            65_536 + reason.len() as u32
        }
    }
}
