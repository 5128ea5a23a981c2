//! Drafts: pages with a clue at half the cells, above it and far above it.

mod common;

use common::{found, holds, published, skipped};
use oracle::drafts::{above_half, draft};
use oracle::random::Random;
use oracle::rules;

#[test]
fn plain_check_is_the_published_one() {
    if skipped() {
        return;
    }
    let mut random = Random::new(28);
    let (mut passes, mut reasons, mut empty) = (0, 0, 0);
    for turn in 0..2_640 {
        let board = draft(&mut random, turn);
        let found = found(&mut published(&board), &board);
        let states = board.states();
        match found {
            _ if !above_half(&board.puzzle) => {}
            None => passes += 1,
            Some(found) if found.reason.is_empty() => empty += 1,
            Some(found) => {
                let held = found.reason.iter().all(|l| holds(&states, l));
                assert!(held, "{board:?}");
                reasons += 1;
            }
        }
    }
    println!("above half: {passes} passes, {reasons} reasons, {empty} empty ones");
    assert!(passes > 20 && reasons > 200 && empty > 200);
}

/// By the rules no page with a clue above half its cells has a solution; some with one at half have.
#[test]
fn a_clue_above_half_the_cells_has_no_solution() {
    let mut random = Random::new(29);
    let mut solved = 0;
    for turn in 0..2_640 {
        let puzzle = draft(&mut random, turn).puzzle;
        if puzzle.cells() > 9 {
            continue;
        }
        let solutions = rules::all_solutions(&puzzle).len();
        assert!(solutions == 0 || !above_half(&puzzle), "{puzzle:?}");
        solved += solutions;
    }
    assert!(solved > 0);
}
