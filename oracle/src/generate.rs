//! Boards from a seed.

pub use crate::cuts::{cut, grown_cut, halved_cut, solved_cut, Cut};
use crate::page::{Board, Literal, Place, Puzzle};
use crate::pieces;
use crate::random::Random;

// ---- colours, clues and literals by chance ----

/// Colours of several kinds: noise, patches, stripes, a checkerboard, two halves.
pub fn colours(random: &mut Random, h: usize, w: usize) -> Vec<i32> {
    let kind = random.below(6);
    let mut colours: Vec<i32> = vec![];
    for cell in 0..h * w {
        let (y, x) = (cell / w, cell % w);
        let colour = match kind {
            0 | 1 => random.below(2),
            2 if y > 0 && random.chance(45) => colours[cell - w] as usize,
            2 if x > 0 && random.chance(70) => colours[cell - 1] as usize,
            2 => random.below(2),
            3 => x % 2,
            4 => (y + x) % 2,
            _ => usize::from(2 * x >= w),
        };
        colours.push(colour as i32);
    }
    colours
}

fn sprinkle(random: &mut Random, clues: &mut [i32], percent: usize, largest: usize) {
    for clue in clues {
        if random.chance(percent) {
            *clue = random.below(largest + 1) as i32;
        }
    }
}

/// Literals by chance: each border wall, open or undecided, in any order.
pub fn scatter(random: &mut Random, borders: usize, walls: usize, opens: usize) -> Vec<Literal> {
    let mut decided = vec![];
    for border in 0..borders {
        let roll = random.below(100);
        if roll < walls + opens {
            decided.push((border, roll < walls));
        }
    }
    random.shuffle(&mut decided);
    decided
}

/// A page and literals by chance, at one of several densities.
pub fn noise(random: &mut Random, h: usize, w: usize) -> Board {
    const DENSITIES: [(usize, usize); 8] = [
        (0, 0),
        (10, 5),
        (30, 0),
        (20, 20),
        (60, 5),
        (40, 40),
        (5, 50),
        (50, 50),
    ];
    let mut puzzle = Puzzle::without_clues(h, w, colours(random, h, w));
    if random.chance(40) {
        let percent = random.between(2, 40);
        sprinkle(random, &mut puzzle.clues, percent, 4);
    }
    let (walls, opens) = *random.pick(&DENSITIES);
    let decided = scatter(random, puzzle.borders(), walls, opens);
    Board { puzzle, decided }
}

// ---- parts of cut pages ----

/// Some literals of a cut, with some of its clues.
pub fn part_of(random: &mut Random, cut: &Cut, literals: usize, clues: usize) -> Board {
    let mut puzzle = cut.puzzle.clone();
    for (cell, &size) in cut.sizes.iter().enumerate() {
        if size > 0 && random.chance(clues) {
            puzzle.clues[cell] = size as i32;
        }
    }
    let mut decided: Vec<Literal> = cut.walls.iter().copied().enumerate().collect();
    decided.retain(|_| random.chance(literals));
    random.shuffle(&mut decided);
    Board { puzzle, decided }
}

/// One change: a side turned, a colour turned, a clue moved, a clue set, or a literal dropped.
pub fn mutate(random: &mut Random, board: &mut Board) {
    let cell = random.below(board.puzzle.cells());
    let clue = &mut board.puzzle.clues[cell];
    match random.below(5) {
        0 => board.puzzle.colours[cell] = 1 - board.puzzle.colours[cell],
        1 if *clue >= 0 => *clue = (*clue + 1 - 2 * random.below(2) as i32).max(0),
        1 | 2 => *clue = random.below(6) as i32,
        _ if board.decided.is_empty() => {}
        3 => {
            let at = random.below(board.decided.len());
            board.decided[at].1 = !board.decided[at].1;
        }
        _ => {
            board.decided.pop();
        }
    }
}

/// A part of a cut page, changed here and there or not at all.
pub fn cut_board(random: &mut Random, h: usize, w: usize) -> Board {
    const DENSITIES: [usize; 6] = [10, 30, 55, 80, 95, 100];
    let cut = cut(random, h, w);
    let literals = *random.pick(&DENSITIES);
    let clues = *random.pick(&[0, 0, 10, 40]);
    let mut board = part_of(random, &cut, literals, clues);
    for _ in 0..*random.pick(&[0, 0, 1, 1, 2]) {
        mutate(random, &mut board);
    }
    board
}

// ---- boards with a given unit ----

/// A page with a unit of this shape, turned by chance and with all its inner borders open; the rest
/// by chance, mostly in the other colour. None where the page has no room.
pub fn unit_board(random: &mut Random, h: usize, w: usize, piece: &[Place]) -> Option<Board> {
    let mut board = noise(random, h, w);
    board.puzzle.clues = vec![-1; h * w];
    let cells = dropped(random, &board.puzzle, piece)?;
    let colour = random.below(2) as i32;
    for cell in 0..h * w {
        if cells.contains(&cell) {
            board.puzzle.colours[cell] = colour;
        } else if random.chance(80) {
            board.puzzle.colours[cell] = 1 - colour;
        }
    }
    let puzzle = &board.puzzle;
    let ends_inside = |border: usize| {
        let (a, b) = puzzle.ends(border);
        usize::from(cells.contains(&a)) + usize::from(cells.contains(&b))
    };
    // Of the rest only walls may touch the unit.
    board.decided.retain(|&(border, wall)| {
        let ends = ends_inside(border);
        random.chance(30) && (ends == 0 || ends == 1 && wall)
    });
    let inner = (0..puzzle.borders()).filter(|&border| ends_inside(border) == 2);
    board.decided.extend(inner.map(|border| (border, false)));
    Some(board)
}

/// The cells of a piece, turned by chance, somewhere on the page.
fn dropped(random: &mut Random, puzzle: &Puzzle, piece: &[Place]) -> Option<Vec<usize>> {
    let (h, w) = (puzzle.h, puzzle.w);
    let quarters = random.below(4);
    let mirrored = random.chance(50);
    let image = pieces::turned(piece, quarters, mirrored);
    let free = vec![true; h * w];
    (0..40).find_map(|_| {
        let y = random.below(2 * h) as i32 - h as i32 / 2;
        let x = random.below(2 * w) as i32 - w as i32 / 2;
        pieces::laid(puzzle, &free, &image, (y, x))
    })
}

/// A board of any kind, of at most this height and width.
pub fn board(random: &mut Random, h: usize, w: usize) -> Board {
    let (h, w) = (random.between(1, h), random.between(1, w));
    match random.below(10) {
        0..=3 => noise(random, h, w),
        4 => {
            let piece = *random.pick(&pieces::CLASSES);
            match unit_board(random, h, w, piece) {
                Some(board) => board,
                None => noise(random, h, w),
            }
        }
        _ => cut_board(random, h, w),
    }
}
