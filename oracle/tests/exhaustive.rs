//! Every colouring and every state of the borders of small pages, with some clues.

mod common;

use common::{contained, found, fresh, skipped};
use oracle::page::{Board, Literal, Puzzle};
use oracle::published::Published;
use oracle::rules;

#[derive(Default)]
struct Seen {
    passes: usize,
    conflicts: usize,
    full_passes: usize,
    full_conflicts: usize,
    repeats: usize,
}

struct Walk {
    board: Board,
    published: Published,
    solutions: Vec<Vec<bool>>,
    seen: Seen,
}

impl Walk {
    /// Tries undecided, wall and open on each border from this one on.
    fn from(&mut self, border: usize) {
        if border == self.board.puzzle.borders() {
            return self.judge();
        }
        self.from(border + 1);
        for wall in [true, false] {
            self.published.decide(border, wall);
            self.board.decided.push((border, wall));
            self.from(border + 1);
            self.board.decided.pop();
            self.published.undo();
        }
    }

    fn judge(&mut self) {
        let board = &self.board;
        let found = found(&mut self.published, board);
        if let Some(found) = &found {
            let held = |literal: &Literal| board.decided.contains(literal);
            assert!(found.reason.iter().all(held), "{board:?}");
            let ruled_out = |walls: &Vec<bool>| contained(walls, &found.reason);
            assert!(!self.solutions.iter().any(ruled_out), "{board:?}");
            self.seen.repeats += usize::from(found.repeats());
        }
        let passed = found.is_none();
        if board.undecided() == 0 {
            let walls: Vec<bool> = board.decided.iter().map(|literal| literal.1).collect();
            assert_eq!(passed, self.solutions.contains(&walls), "{board:?}");
            self.seen.full_passes += usize::from(passed);
            self.seen.full_conflicts += usize::from(!passed);
        }
        self.seen.passes += usize::from(passed);
        self.seen.conflicts += usize::from(!passed);
    }
}

/// All lists of this length with entries from `from`.
fn lists(from: &[i32], length: usize) -> Vec<Vec<i32>> {
    let mut all = vec![vec![]];
    for _ in 0..length {
        let longer = |list: &Vec<i32>| -> Vec<Vec<i32>> {
            let with = |&entry: &i32| [list.as_slice(), &[entry]].concat();
            from.iter().map(with).collect()
        };
        all = all.iter().flat_map(longer).collect();
    }
    all
}

/// Walks over all colourings of a page with each of these lists of clues. Gives how many published lists
/// had repeats.
fn walk(h: usize, w: usize, clues: &[Vec<i32>]) -> usize {
    let mut seen = Seen::default();
    for colours in lists(&[0, 1], h * w) {
        for clues in clues {
            let mut puzzle = Puzzle::without_clues(h, w, colours.clone());
            puzzle.clues.clone_from(clues);
            let mut walk = Walk {
                published: fresh(&puzzle),
                solutions: rules::all_solutions(&puzzle),
                board: Board {
                    puzzle,
                    decided: vec![],
                },
                seen,
            };
            walk.from(0);
            assert!(walk.published.stack().is_empty());
            seen = walk.seen;
        }
    }
    assert!(seen.conflicts > 0 && seen.full_conflicts > 0);
    assert_eq!(seen.passes > 0, h * w > 1);
    assert_eq!(seen.full_passes > 0, (h * w).is_multiple_of(2));
    println!(
        "{h}x{w}: {} conflicts, {} with repeats",
        seen.conflicts, seen.repeats
    );
    seen.repeats
}

/// No clue, and each of these clues alone in each of these cells.
fn single(cells: usize, places: &[usize], values: &[i32]) -> Vec<Vec<i32>> {
    let mut all = vec![vec![-1; cells]];
    for &place in places {
        for &value in values {
            let mut clues = vec![-1; cells];
            clues[place] = value;
            all.push(clues);
        }
    }
    all
}

#[test]
fn one_row() {
    if skipped() {
        return;
    }
    for w in 1..=4 {
        walk(1, w, &lists(&[-1, 0, 1, 2, 3], w));
    }
    let repeats = walk(1, 5, &lists(&[-1, 1, 2], 5));
    assert!(repeats > 500, "{repeats}");
}

#[test]
fn one_column() {
    if skipped() {
        return;
    }
    for h in 2..=4 {
        walk(h, 1, &lists(&[-1, 1, 2], h));
    }
}

#[test]
fn two_by_two() {
    if skipped() {
        return;
    }
    let repeats = walk(2, 2, &lists(&[-1, 0, 1, 2], 4));
    assert!(repeats > 100, "{repeats}");
}

#[test]
fn two_by_three() {
    if skipped() {
        return;
    }
    let repeats = walk(2, 3, &single(6, &[0, 4], &[1, 3]));
    assert!(repeats > 5_000, "{repeats}");
}

#[test]
fn three_by_two() {
    if skipped() {
        return;
    }
    let repeats = walk(3, 2, &single(6, &[3], &[2]));
    assert!(repeats > 2_000, "{repeats}");
}
