//! Drafts: boards whose page has a clue at half its cells, above that, or far above it.

use crate::generate;
use crate::page::{Board, Puzzle};
use crate::random::Random;

/// The sizes that take turns: a cell, a row, a column, and pages from the least to the largest.
pub const SIZES: [(usize, usize); 11] = [
    (1, 1),
    (1, 2),
    (2, 2),
    (3, 3),
    (4, 5),
    (8, 8),
    (1, 32),
    (32, 1),
    (10, 10),
    (16, 16),
    (32, 32),
];

/// How many clues take turns on each size.
pub const CLUES: usize = 8;

/// Half the cells, one more, all cells, one more, numbers that a cut to 8 or to 16 bits makes half the
/// cells, and the two largest.
fn clues(cells: usize) -> [i32; CLUES] {
    let (half, all) = ((cells / 2) as i32, cells as i32);
    [
        half,
        half + 1,
        all,
        all + 1,
        256 + half,
        65_536 + half,
        i32::MAX - 1,
        i32::MAX,
    ]
}

/// Whether a clue is above half the cells.
pub fn above_half(puzzle: &Puzzle) -> bool {
    let half = (puzzle.cells() / 2) as i32;
    puzzle.clues.iter().any(|&clue| clue > half)
}

/// A draft; sizes and clues take turns. Most cells have one colour, so that a potential unit can have
/// more cells than half the page and the clue does not always clash.
pub fn draft(random: &mut Random, turn: usize) -> Board {
    const DENSITIES: [(usize, usize); 6] = [(0, 0), (3, 2), (8, 0), (2, 30), (1, 90), (40, 40)];
    let (h, w) = SIZES[turn % SIZES.len()];
    let clue = clues(h * w)[turn / SIZES.len() % CLUES];
    let share = *random.pick(&[55, 70, 85, 97]);
    let colour = random.below(2) as i32;
    let colours = (0..h * w).map(|_| {
        if random.chance(share) {
            colour
        } else {
            1 - colour
        }
    });
    let mut puzzle = Puzzle::without_clues(h, w, colours.collect());
    for _ in 0..random.between(1, 2) {
        let cell = random.below(h * w);
        puzzle.clues[cell] = clue;
    }
    let (walls, opens) = *random.pick(&DENSITIES);
    let decided = generate::scatter(random, puzzle.borders(), walls, opens);
    Board { puzzle, decided }
}
