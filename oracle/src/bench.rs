//! Large boards made on purpose, and the named list of bench boards.

use crate::generate::{self, Cut};
use crate::page::{Board, Puzzle};
use crate::plain::{self, Branch};
use crate::random::Random;

// ---- boards made on purpose ----

fn checkerboard(h: usize, w: usize) -> Puzzle {
    let colours = (0..h * w).map(|cell| ((cell / w + cell % w) % 2) as i32);
    Puzzle::without_clues(h, w, colours.collect())
}

/// Left half 0, right half 1.
fn two_halves(n: usize) -> Puzzle {
    let colours = (0..n * n).map(|cell| i32::from(cell % n >= n / 2));
    Puzzle::without_clues(n, n, colours.collect())
}

/// A corner piece of four cells in the top row and left column, and beside it stairs of the other
/// colour with walls between them: each placement on the stairs is blocked.
pub fn stairs(n: usize) -> Board {
    let colours = (0..n * n).map(|cell| i32::from(cell >= n && cell % n > 0));
    let puzzle = Puzzle::without_clues(n, n, colours.collect());
    let mut decided = vec![];
    for y in 1..n {
        for x in 1..n {
            // From (y, x) the stair goes on to the right or below.
            let goes_right = (y + x) % 2 == 0;
            if x + 1 < n && !goes_right {
                decided.push((puzzle.right(y, x), true));
            }
            if y + 1 < n && goes_right {
                decided.push((puzzle.below(y, x), true));
            }
        }
    }
    for border in [puzzle.right(0, 0), puzzle.right(0, 1), puzzle.below(0, 0)] {
        decided.push((border, false));
    }
    Board { puzzle, decided }
}

/// Every border open: where step 1 hits, the inside of the one block is the whole page.
pub fn all_open(puzzle: &Puzzle) -> Board {
    let decided = (0..puzzle.borders()).map(|border| (border, false));
    Board {
        puzzle: puzzle.clone(),
        decided: decided.collect(),
    }
}

/// A tile of a half page: rows, columns, and which corner is missing (bottom, right).
#[derive(Clone, Copy)]
pub struct Tile {
    pub rows: usize,
    pub columns: usize,
    pub bottom: bool,
    pub right: bool,
}

impl Tile {
    /// The image under the last row, (y, x) to (-x, -y).
    fn last_image(self) -> Tile {
        Tile {
            rows: self.columns,
            columns: self.rows,
            bottom: !self.right,
            right: !self.bottom,
        }
    }

    /// The tile of a cell of a half page and whether it is the missing corner; none past the last
    /// tile.
    fn of(self, n: usize, y: usize, x: usize) -> Option<(usize, usize, bool)> {
        let (i, j) = (y / self.rows, x / self.columns);
        if (i + 1) * self.rows > n || (j + 1) * self.columns > n / 2 {
            return None;
        }
        let at_row = y % self.rows == if self.bottom { self.rows - 1 } else { 0 };
        let at_column = x % self.columns == if self.right { self.columns - 1 } else { 0 };
        Some((i, j, at_row && at_column))
    }
}

/// Two halves of walled rectangles less a corner. Each unit fits the other half's at the last
/// transform alone. The sides of a tile are 3 or more.
pub fn slow(n: usize, tile: Tile) -> Board {
    let puzzle = two_halves(n);
    let mut decided = vec![];
    for cell in 0..n * n {
        for (border, other) in puzzle.ahead(cell) {
            if puzzle.colours[cell] == puzzle.colours[other] {
                let right = puzzle.colours[cell] == 1;
                let tile = if right { tile.last_image() } else { tile };
                let side = side_between(n, tile, cell, other);
                decided.extend(side.map(|wall| (border, wall)));
            }
        }
    }
    Board { puzzle, decided }
}

/// Wall, open or undecided between a cell of a half and the one below or right of it.
fn side_between(n: usize, tile: Tile, cell: usize, other: usize) -> Option<bool> {
    let place = |cell: usize| (cell / n, cell % n % (n / 2));
    let ((y, x), (v, u)) = (place(cell), place(other));
    let across = y == v;
    let few = match (tile.of(n, y, x), tile.of(n, v, u)) {
        (Some((i, j, a)), Some((k, l, b))) if (i, j) == (k, l) => {
            // A missing corner has a wall above or below and an undecided border at its side.
            return if a || b {
                (!across).then_some(true)
            } else {
                Some(false)
            };
        }
        (Some(_), Some(_)) if across => y % tile.rows == 1,
        (Some(_), Some(_)) => x % tile.columns == 1,
        // Cells past the last tile hang together row by row.
        _ => across || x == 1,
    };
    (!few).then_some(true)
}

/// A large unit for which no placement is free: walls stand in the other half at a small distance.
pub fn big_fail(n: usize) -> Board {
    let puzzle = two_halves(n);
    let (rows, columns) = (n / 2, n / 4);
    let mut decided = vec![];
    let inside = |cell: usize| cell > 0 && cell / n < rows && cell % n < columns;
    for cell in 0..n * n {
        for (border, other) in puzzle.ahead(cell) {
            if inside(cell) && inside(other) {
                decided.push((border, false));
            }
        }
    }
    let step = (n / 8).max(2);
    for y in 0..n - 1 {
        for x in n / 2..n {
            if (y + x) % step == 0 {
                decided.push((puzzle.below(y, x), true));
            }
        }
    }
    Board { puzzle, decided }
}

/// One path through all cells of an even page, the one half of it 0 and the other 1, with a wall
/// between its two ends: the longest reason of step 2.
pub fn snake(n: usize) -> Board {
    let mut path: Vec<usize> = (0..n).collect();
    for (i, x) in (0..n).rev().enumerate() {
        let column = (1..n).map(|y| y * n + x);
        if i % 2 == 0 {
            path.extend(column);
        } else {
            path.extend(column.rev());
        }
    }
    let mut rank = vec![0; n * n];
    for (i, &cell) in path.iter().enumerate() {
        rank[cell] = i;
    }
    let colours = rank.iter().map(|&i| i32::from(2 * i >= n * n));
    let puzzle = Puzzle::without_clues(n, n, colours.collect());
    let decided = (0..puzzle.borders()).map(|border| {
        let (a, b) = puzzle.ends(border);
        (border, rank[a].abs_diff(rank[b]) != 1)
    });
    Board {
        decided: decided.collect(),
        puzzle,
    }
}

// ---- the list ----

/// A bench board and its name.
pub struct Named {
    pub name: String,
    pub board: Board,
}

/// A part of a solved page.
fn part(page: &Cut, literals: usize, clues: usize) -> Board {
    generate::part_of(&mut Random::new(7), page, literals, clues)
}

/// The first board with a hit of this kind among changed parts of a solved page.
fn conflict(page: &Cut, wanted: impl Fn(Branch) -> bool) -> Board {
    let mut random = Random::new(11);
    loop {
        let mut board = generate::part_of(&mut random, page, 80, 5);
        generate::mutate(&mut random, &mut board);
        if plain::check(&board).is_some_and(|hit| wanted(hit.branch)) {
            return board;
        }
    }
}

/// The two tiles that were found slowest for a page of this size.
fn slowest(n: usize) -> [Tile; 2] {
    let tile = |rows, columns, bottom, right| Tile {
        rows,
        columns,
        bottom,
        right,
    };
    match n {
        8 => [tile(3, 4, false, false), tile(4, 3, true, false)],
        16 => [tile(4, 3, false, true), tile(4, 5, false, true)],
        _ => [tile(7, 4, false, true), tile(4, 8, true, false)],
    }
}

fn kinds(n: usize) -> Vec<(&'static str, Board)> {
    let [worst, worst2] = slowest(n);
    let page = generate::solved_cut(&mut Random::new(n as u64), n, n, 6);
    let empty = |puzzle| Board {
        puzzle,
        decided: vec![],
    };
    vec![
        ("empty", empty(page.puzzle.clone())),
        ("checkerboard", empty(checkerboard(n, n))),
        ("clues", part(&page, 30, 100)),
        ("half", part(&page, 50, 0)),
        ("most", part(&page, 90, 10)),
        ("full", part(&page, 100, 10)),
        ("conflict1", conflict(&page, |b| b < Branch::WallBelow)),
        ("conflict2", conflict(&page, |b| b == Branch::WallRight)),
        ("conflict3", conflict(&page, |b| b > Branch::Alone)),
        ("long", all_open(&page.puzzle)),
        ("snake", snake(n)),
        ("stairs", stairs(n)),
        ("bigfail", big_fail(n)),
        ("worst", slow(n, worst)),
        ("worst2", slow(n, worst2)),
    ]
}

/// The bench boards.
pub fn boards() -> Vec<Named> {
    let mut list = vec![];
    for n in [8, 16, 32] {
        for (kind, board) in kinds(n) {
            let name = format!("{n}x{n} {kind}");
            list.push(Named { name, board });
        }
    }
    list
}
