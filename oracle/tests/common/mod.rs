#![allow(dead_code)]

use oracle::page::{struck, Board, Literal, Puzzle, State};
use oracle::plain;
use oracle::published::Published;
use std::collections::BTreeSet;

/// Whether the test has to be skipped, which it then says.
pub fn skipped() -> bool {
    if !oracle::SOURCE {
        println!("skipped: no source");
    }
    !oracle::SOURCE
}

pub fn fresh(puzzle: &Puzzle) -> Published {
    Published::new(puzzle.h, puzzle.w, &puzzle.colours, &puzzle.clues)
}

pub fn published(board: &Board) -> Published {
    let mut made = fresh(&board.puzzle);
    for &(border, wall) in &board.decided {
        made.decide(border, wall);
    }
    made
}

/// A reason, and 01's list, in which a literal may stand more than once.
pub struct Found {
    pub listed: Vec<Literal>,
    pub reason: Vec<Literal>,
}

impl Found {
    pub fn repeats(&self) -> bool {
        self.reason.len() < self.listed.len()
    }
}

/// What the published board finds, or none for a pass. The plain check must find the same list and the
/// same reason, and the reason must name no border twice.
pub fn found(made: &mut Published, board: &Board) -> Option<Found> {
    let listed = made.find_inconsistency();
    let hit = plain::check(board);
    let plain = hit.as_ref().map(|hit| &hit.listed);
    assert_eq!(plain, listed.as_ref(), "{board:?}");
    let (listed, hit) = (listed?, hit?);
    let reason = struck(listed.clone());
    assert_eq!(hit.reason(), reason, "{board:?}");
    let named: BTreeSet<usize> = reason.iter().map(|literal| literal.0).collect();
    assert_eq!(named.len(), reason.len(), "{board:?}");
    assert!(reason.len() <= board.decided.len(), "{board:?}");
    Some(Found { listed, reason })
}

pub fn holds(states: &[State], literal: &Literal) -> bool {
    states[literal.0] == if literal.1 { State::Wall } else { State::Open }
}

pub fn contained(walls: &[bool], reason: &[Literal]) -> bool {
    reason.iter().all(|&(border, wall)| walls[border] == wall)
}
