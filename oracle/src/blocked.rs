//! Boards on which a unit mostly fits nowhere, and few walls block many placements: 01's list then has
//! twice as many literals as the reason, or more.

use crate::bench::{slow, stairs, Tile};
use crate::page::Board;
use crate::random::Random;

/// The board of `bench::stairs` with some walls left out and a longer unit in the corner.
fn corner(random: &mut Random, n: usize) -> Board {
    let mut board = stairs(n);
    let missing = *random.pick(&[0, 1, 3]);
    board
        .decided
        .retain(|&(_, wall)| !wall || !random.chance(missing));
    for x in 2..random.between(2, n - 2) {
        board.decided.push((board.puzzle.right(0, x), false));
    }
    for y in 1..random.between(1, n - 2) {
        board.decided.push((board.puzzle.below(y, 0), false));
    }
    random.shuffle(&mut board.decided);
    board
}

/// The board of `bench::slow` with the tiles of the right half undecided but for some walls.
fn tiles(random: &mut Random, n: usize) -> Board {
    let tile = Tile {
        rows: random.between(3, n / 2),
        columns: random.between(3, n / 2),
        bottom: random.chance(50),
        right: random.chance(50),
    };
    let mut board = slow(n, tile);
    let walls = random.between(5, 40);
    let puzzle = &board.puzzle;
    board.decided.retain_mut(|(border, wall)| {
        let left = puzzle.colours[puzzle.ends(*border).0] == 0;
        if left || *wall {
            return true;
        }
        *wall = true;
        random.chance(walls)
    });
    random.shuffle(&mut board.decided);
    board
}

/// A board of up to 32x32; the two kinds take turns.
pub fn board(random: &mut Random, turn: usize) -> Board {
    let n = *random.pick(&[6, 8, 12, 16, 24, 32]);
    match turn % 2 {
        0 => corner(random, n),
        _ => tiles(random, n),
    }
}
