//! What the proved functions are held against: the published code, or `oracle::plain` where its
//! source is not there.

use oracle::book::Answer;
use oracle::page::{code, struck, Board, Groups, Kind, Literal, Transform, KINDS};
use oracle::plain::{self, View};
use oracle::published::Published;
use oracle::shapes;

/// Says so where the published source is missing.
pub fn note_source() {
    if !oracle::SOURCE {
        println!("skipped: no source; compared with oracle::plain");
    }
}

pub fn published(board: &Board) -> Published {
    let puzzle = &board.puzzle;
    let mut made = Published::new(puzzle.h, puzzle.w, &puzzle.colours, &puzzle.clues);
    for &(border, wall) in &board.decided {
        made.decide(border, wall);
    }
    made
}

/// 01's list of the first hit, in which a literal may stand more than once; none for a pass.
pub fn listed(board: &Board) -> Option<Vec<Literal>> {
    if oracle::SOURCE {
        return published(board).find_inconsistency();
    }
    plain::check(board).map(|hit| hit.listed)
}

/// What a check answers whose first hit has this list: later repeats are struck.
pub fn answer(board: &Board, listed: Option<Vec<Literal>>) -> Answer {
    match listed {
        Some(listed) => Answer::Conflict(struck(listed)),
        None => Answer::Pass(board.undecided()),
    }
}

/// What a check answers.
pub fn check(board: &Board) -> Answer {
    answer(board, listed(board))
}

/// The reason of a check, or none for a pass.
pub fn reason(board: &Board) -> Option<Vec<Literal>> {
    match check(board) {
        Answer::Conflict(reason) => Some(reason),
        _ => None,
    }
}

/// The groups of the three kinds.
pub fn groups(board: &Board) -> Vec<Groups> {
    if oracle::SOURCE {
        let theirs = published(board);
        KINDS.iter().map(|&kind| theirs.groups(kind)).collect()
    } else {
        let view = View::new(board);
        KINDS
            .iter()
            .map(|&kind| view.groups(kind).clone())
            .collect()
    }
}

/// Inside of each block, Inside of each unit, Edge of each potential unit.
pub fn reasons(board: &Board) -> [Vec<Vec<Literal>>; 3] {
    if oracle::SOURCE {
        return published(board).group_reasons();
    }
    let view = View::new(board);
    let insides = |kind: Kind| {
        let groups = view.groups(kind);
        let all = 0..groups.lists.len();
        all.map(|group| view.inside(groups, group)).collect()
    };
    let potential = 0..view.potential.lists.len();
    let edges = potential.map(|group| view.edge(group)).collect();
    [insides(Kind::Blocks), insides(Kind::Units), edges]
}

/// The listed transforms of each unit.
pub fn transforms(board: &Board) -> Vec<Vec<Transform>> {
    if oracle::SOURCE {
        let theirs = published(board);
        let units = 0..theirs.groups(Kind::Units).lists.len();
        return units.map(|unit| theirs.transforms(unit)).collect();
    }
    let view = View::new(board);
    let shape = |cells: &Vec<usize>| shapes::shape(&board.puzzle, cells);
    let listed = |cells: &Vec<usize>| shapes::transforms(&shape(cells));
    view.units.lists.iter().map(listed).collect()
}

/// A transform as it stands in memory: down and across for each cell, then for each connection.
pub fn numbers((cells, connections): &Transform) -> Vec<i32> {
    let places = cells.iter().chain(connections);
    places.flat_map(|&(y, x)| [y, x]).collect()
}

/// Paths on one board.
pub struct Paths<'a> {
    view: View<'a>,
    theirs: Option<Published>,
}

impl<'a> Paths<'a> {
    pub fn new(board: &'a Board) -> Paths<'a> {
        Paths {
            view: View::new(board),
            theirs: oracle::SOURCE.then(|| published(board)),
        }
    }

    /// The cells of the blocks.
    pub fn blocks(&self) -> &Groups {
        &self.view.blocks
    }

    /// Path from cell a to cell b, both on the page; no literals if b is not reached.
    pub fn path(&self, a: usize, b: usize) -> Vec<Literal> {
        match &self.theirs {
            Some(theirs) => theirs.path(a, b).unwrap_or_default(),
            None => self.view.path(a, b),
        }
    }
}

/// Literals as they stand in memory.
pub fn codes(literals: &[Literal]) -> Vec<u16> {
    literals
        .iter()
        .map(|literal| code(literal) as u16)
        .collect()
}

/// Groups as they stand in memory: numbers, cells, starts, each filled up with 0, then the count.
pub fn words(groups: &Groups) -> Vec<u16> {
    let filled = |list: Vec<usize>, length: usize| {
        let mut places: Vec<u16> = list.iter().map(|&n| n as u16).collect();
        places.resize(length, 0);
        places
    };
    let mut starts = vec![0];
    for list in &groups.lists {
        starts.push(starts[starts.len() - 1] + list.len());
    }
    [
        filled(groups.ids.clone(), 1024),
        filled(groups.lists.concat(), 1024),
        filled(starts, 1025),
        vec![groups.lists.len() as u16],
    ]
    .concat()
}
