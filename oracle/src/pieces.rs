//! Pieces for the generator: polyominoes grown in free cells, and their congruent copies.

use crate::page::{Place, Puzzle};
use crate::random::Random;

/// One piece for each list of rows in `shapes::LISTS`, in that order.
pub const CLASSES: [&[Place]; 6] = [
    &[(0, 0), (1, 0), (2, 0), (2, 1)],
    &[(0, 0), (0, 1), (1, 0)],
    &[(0, 0), (0, 1), (1, 1), (1, 2)],
    &[(0, 0), (0, 1), (0, 2)],
    &PINWHEEL,
    &[(0, 0), (0, 1), (1, 0), (1, 1)],
];

/// The least piece that equals its quarter turn and not its reflection.
pub const PINWHEEL: [Place; 8] = [
    (0, 1),
    (1, 1),
    (1, 2),
    (1, 3),
    (2, 0),
    (2, 1),
    (2, 2),
    (3, 2),
];

/// A quarter turn some times over, after a reflection or not.
pub fn turned(piece: &[Place], quarters: usize, mirrored: bool) -> Vec<Place> {
    let mut places: Vec<Place> = piece.to_vec();
    if mirrored {
        places = places.iter().map(|&(y, x)| (y, -x)).collect();
    }
    for _ in 0..quarters {
        places = places.iter().map(|&(y, x)| (x, -y)).collect();
    }
    places
}

/// The cells of a piece moved by (dy, dx), or none if one is off the page or not free.
pub fn laid(puzzle: &Puzzle, free: &[bool], piece: &[Place], by: Place) -> Option<Vec<usize>> {
    let mut cells = vec![];
    for &(y, x) in piece {
        let (y, x) = (y + by.0, x + by.1);
        let on_page = 0 <= y && y < puzzle.h as i32 && 0 <= x && x < puzzle.w as i32;
        let cell = (y * puzzle.w as i32 + x) as usize;
        if !on_page || !free[cell] {
            return None;
        }
        cells.push(cell);
    }
    Some(cells)
}

/// A connected set of free cells of this size with `start` among them, or fewer where they end.
pub fn grown(
    random: &mut Random,
    puzzle: &Puzzle,
    free: &[bool],
    start: usize,
    size: usize,
) -> Vec<usize> {
    let mut cells = vec![start];
    while cells.len() < size {
        let next = fringe(puzzle, free, &cells);
        if next.is_empty() {
            break;
        }
        cells.push(*random.pick(&next));
    }
    cells
}

/// The free cells beside a set of cells, in row order.
pub fn fringe(puzzle: &Puzzle, free: &[bool], cells: &[usize]) -> Vec<usize> {
    let mut found: Vec<usize> = cells
        .iter()
        .flat_map(|&cell| puzzle.around(cell))
        .map(|(_, other)| other)
        .filter(|other| free[*other] && !cells.contains(other))
        .collect();
    found.sort();
    found.dedup();
    found
}

/// A turned or reflected copy of a piece on free cells beside it, by some tries.
pub fn copied(
    random: &mut Random,
    puzzle: &Puzzle,
    free: &[bool],
    cells: &[usize],
) -> Option<Vec<usize>> {
    let mut left = free.to_vec();
    for &cell in cells {
        left[cell] = false;
    }
    let beside = fringe(puzzle, &left, cells);
    if beside.is_empty() {
        return None;
    }
    let place = |cell: usize| ((cell / puzzle.w) as i32, (cell % puzzle.w) as i32);
    let piece: Vec<Place> = cells.iter().map(|&cell| place(cell)).collect();
    (0..24).find_map(|_| {
        let quarters = random.below(4);
        let mirrored = random.chance(50);
        let image = turned(&piece, quarters, mirrored);
        let (ty, tx) = place(*random.pick(&beside));
        let (cy, cx) = *random.pick(&image);
        laid(puzzle, &left, &image, (ty - cy, tx - cx))
    })
}
