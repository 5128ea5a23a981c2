//! Many boards for the check: all of small pages, and generated ones of every size.

use crate::boards;
use crate::checks::Trial;
use crate::expected;
use crate::ours::Memory;
use oracle::book::{Answer, PLACES};
use oracle::page::{Board, Puzzle};
use oracle::random::Random;
use oracle::{blocked, generate};

/// What the compared checks answered.
#[derive(Debug, Default)]
pub struct Seen {
    pub boards: usize,
    pub passes: usize,
    pub conflicts: usize,
    pub empty_reasons: usize,
    pub literals: usize,
    pub longest: usize,
    /// Boards on which later repeats were struck, and those on which 01's list has at least twice as
    /// many literals as the reason.
    pub struck: usize,
    pub twice_as_long: usize,
}

impl Seen {
    /// An answer, and how many literals 01's list has.
    fn add(&mut self, answer: &Answer, listed: usize) {
        self.boards += 1;
        match answer {
            Answer::Conflict(reason) => {
                self.conflicts += 1;
                self.empty_reasons += usize::from(reason.is_empty());
                self.literals += reason.len();
                self.longest = self.longest.max(reason.len());
                self.struck += usize::from(listed > reason.len());
                self.twice_as_long += usize::from(listed >= 2 * reason.len().max(1));
            }
            _ => self.passes += 1,
        }
    }
}

/// Compares the proved check with the published one: pass with its count, or the reason literal by
/// literal, later repeats struck, and the memory beyond it.
pub struct Judge {
    memory: Memory,
    pub seen: Seen,
}

impl Judge {
    pub fn new(seed: u64) -> Judge {
        Judge {
            memory: Memory::new(&mut Random::new(seed), PLACES + 5),
            seen: Seen::default(),
        }
    }

    pub fn judge(&mut self, board: &Board) {
        let answer = Trial::new(board).answer(&mut self.memory);
        let listed = expected::listed(board);
        let length = listed.as_ref().map_or(0, Vec::len);
        let wanted = expected::answer(board, listed);
        assert!(answer == wanted, "{answer:?} {board:?}");
        self.seen.add(&answer, length);
    }

    /// Every colouring of a page, with each list of clues from these numbers, and each border
    /// undecided, wall or open.
    pub fn page(&mut self, h: usize, w: usize, clues: &[i32]) {
        for puzzle in puzzles(h, w, clues) {
            settings(&puzzle, &mut |board| self.judge(board));
        }
    }

    /// So many generated boards: half of them up to 8x8, the others up to 16x16 and 32x32; one in 16 has
    /// many repeats.
    pub fn generated(&mut self, seed: u64, count: usize) {
        let mut random = Random::new(seed);
        for turn in 0..count {
            let side = [8, 16, 8, 32][turn % 4];
            let board = match turn % 16 {
                // Three of 16 have 32x32 cells.
                3 => generate::noise(&mut random, side, side),
                7 => generate::cut_board(&mut random, side, side),
                11 => boards::opened(&mut random, side, side),
                15 => blocked::board(&mut random, turn / 16),
                _ => generate::board(&mut random, side, side),
            };
            self.judge(&board);
        }
    }
}

/// Every colouring of a page with each list of clues from these numbers.
pub fn puzzles(h: usize, w: usize, clues: &[i32]) -> Vec<Puzzle> {
    let clues = lists(clues, h * w);
    let coloured = |colours: Vec<i32>| {
        let puzzle = |clues: &Vec<i32>| Puzzle {
            h,
            w,
            colours: colours.clone(),
            clues: clues.clone(),
        };
        clues.iter().map(puzzle).collect::<Vec<Puzzle>>()
    };
    let colourings = lists(&[0, 1], h * w).into_iter();
    colourings.flat_map(coloured).collect()
}

/// Every board of the puzzle: each border undecided, wall or open.
pub fn settings(puzzle: &Puzzle, each: &mut dyn FnMut(&Board)) {
    let mut board = Board {
        puzzle: puzzle.clone(),
        decided: vec![],
    };
    settings_from(&mut board, 0, each);
}

/// Tries undecided, wall and open on each border from this one on.
fn settings_from(board: &mut Board, border: usize, each: &mut dyn FnMut(&Board)) {
    if border == board.puzzle.borders() {
        return each(board);
    }
    settings_from(board, border + 1, each);
    for wall in [true, false] {
        board.decided.push((border, wall));
        settings_from(board, border + 1, each);
        board.decided.pop();
    }
}

/// All lists of this length with entries from `from`.
fn lists(from: &[i32], length: usize) -> Vec<Vec<i32>> {
    let mut all = vec![vec![]];
    for _ in 0..length {
        let longer = |list: &Vec<i32>| -> Vec<Vec<i32>> {
            let with = |&entry: &i32| [list.as_slice(), &[entry]].concat();
            from.iter().map(with).collect()
        };
        all = all.iter().flat_map(longer).collect();
    }
    all
}
