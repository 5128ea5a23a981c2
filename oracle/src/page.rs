//! Cells, borders and literals of a page, as document 01's section "Board" numbers them.

use std::collections::BTreeSet;

/// A border number with its side; `true` is wall, as in the published code.
pub type Literal = (usize, bool);

/// A cell or a doubled place, (y, x).
pub type Place = (i32, i32);

/// What a literal is in reason memory: twice the border, plus 1 for wall.
pub fn code(literal: &Literal) -> usize {
    2 * literal.0 + usize::from(literal.1)
}

/// The list with the first of equal literals kept and later ones dropped.
pub fn struck(mut list: Vec<Literal>) -> Vec<Literal> {
    let mut kept = BTreeSet::new();
    list.retain(|&literal| kept.insert(literal));
    list
}

#[derive(Clone, Copy, Debug, PartialEq, Eq)]
pub enum State {
    Undecided,
    Wall,
    Open,
}

/// How many borders are undecided, wall and open. A record of these that a host lends may hold any
/// numbers.
#[derive(Clone, Copy, Debug, PartialEq, Eq)]
pub struct Tally {
    pub undecided: usize,
    pub walls: usize,
    pub opens: usize,
}

impl Tally {
    /// The counts in the order of an image and of a lent record.
    pub fn counts(self) -> [usize; 3] {
        [self.undecided, self.walls, self.opens]
    }
}

impl From<[usize; 3]> for Tally {
    fn from([undecided, walls, opens]: [usize; 3]) -> Tally {
        Tally {
            undecided,
            walls,
            opens,
        }
    }
}

/// Height, width, colours and clues (-1 is none). Nothing is promised of the numbers.
#[derive(Clone, Debug, PartialEq, Eq)]
pub struct Puzzle {
    pub h: usize,
    pub w: usize,
    pub colours: Vec<i32>,
    pub clues: Vec<i32>,
}

impl Puzzle {
    pub fn without_clues(h: usize, w: usize, colours: Vec<i32>) -> Puzzle {
        let clues = vec![-1; colours.len()];
        Puzzle {
            h,
            w,
            colours,
            clues,
        }
    }

    pub fn cells(&self) -> usize {
        self.h * self.w
    }

    pub fn borders(&self) -> usize {
        self.h * (self.w - 1) + (self.h - 1) * self.w
    }

    /// The border right of (y, x).
    pub fn right(&self, y: usize, x: usize) -> usize {
        y * (self.w - 1) + x
    }

    /// The border below (y, x).
    pub fn below(&self, y: usize, x: usize) -> usize {
        self.h * (self.w - 1) + y * self.w + x
    }

    /// The two cells of a border, the one above or to the left first.
    pub fn ends(&self, border: usize) -> (usize, usize) {
        let upright = self.h * (self.w - 1);
        if border < upright {
            let cell = border / (self.w - 1) * self.w + border % (self.w - 1);
            (cell, cell + 1)
        } else {
            let cell = border - upright;
            (cell, cell + self.w)
        }
    }

    /// Borders of a cell with the neighbour behind each: below, right.
    pub fn ahead(&self, cell: usize) -> Vec<(usize, usize)> {
        let (y, x) = (cell / self.w, cell % self.w);
        let mut hops = vec![];
        if y + 1 < self.h {
            hops.push((self.below(y, x), cell + self.w));
        }
        if x + 1 < self.w {
            hops.push((self.right(y, x), cell + 1));
        }
        hops
    }

    /// Borders of a cell with the neighbour behind each: above, below, left, right.
    pub fn around(&self, cell: usize) -> Vec<(usize, usize)> {
        let (y, x) = (cell / self.w, cell % self.w);
        let mut hops = vec![];
        if y > 0 {
            hops.push((self.below(y - 1, x), cell - self.w));
        }
        if y + 1 < self.h {
            hops.push((self.below(y, x), cell + self.w));
        }
        if x > 0 {
            hops.push((self.right(y, x - 1), cell - 1));
        }
        if x + 1 < self.w {
            hops.push((self.right(y, x), cell + 1));
        }
        hops
    }
}

/// A puzzle with the literals decided on it, in the order of deciding.
#[derive(Clone, Debug, PartialEq, Eq)]
pub struct Board {
    pub puzzle: Puzzle,
    pub decided: Vec<Literal>,
}

impl Board {
    pub fn states(&self) -> Vec<State> {
        states(&self.puzzle, &self.decided)
    }

    pub fn undecided(&self) -> usize {
        self.puzzle.borders() - self.decided.len()
    }

    pub fn tally(&self) -> Tally {
        tally(&self.puzzle, &self.decided)
    }
}

/// The tally when just these literals are decided.
pub fn tally(puzzle: &Puzzle, decided: &[Literal]) -> Tally {
    let walls = decided.iter().filter(|literal| literal.1).count();
    Tally {
        undecided: puzzle.borders() - decided.len(),
        walls,
        opens: decided.len() - walls,
    }
}

/// What each border holds when just these literals are decided.
pub fn states(puzzle: &Puzzle, decided: &[Literal]) -> Vec<State> {
    let mut states = vec![State::Undecided; puzzle.borders()];
    for &(border, wall) in decided {
        states[border] = if wall { State::Wall } else { State::Open };
    }
    states
}

#[derive(Clone, Copy, Debug, PartialEq, Eq)]
pub enum Kind {
    Blocks,
    Units,
    Potential,
}

pub const KINDS: [Kind; 3] = [Kind::Blocks, Kind::Units, Kind::Potential];

/// The group number of each cell, and the cells of each group in row order.
#[derive(Clone, Debug, PartialEq, Eq)]
pub struct Groups {
    pub ids: Vec<usize>,
    pub lists: Vec<Vec<usize>>,
}

/// A listed transform: its cells and its connections (in doubled coordinates).
pub type Transform = (Vec<Place>, Vec<Place>);
