//! Generated boards: reasons, full settings, the longest reason, and the parts of a check.

mod common;

use common::{contained, found, fresh, holds, published, skipped};
use oracle::bench::Named;
use oracle::generate::{self, Cut};
use oracle::page::{struck, Board, Kind, Literal, KINDS};
use oracle::plain::View;
use oracle::random::Random;
use oracle::{bench, blocked, book, rules, shapes};

fn reason(board: &Board) -> Option<Vec<Literal>> {
    published(board).check()
}

#[test]
fn reasons_hold_and_are_in_no_solution() {
    if skipped() {
        return;
    }
    let mut random = Random::new(21);
    let (mut reasons, mut solutions) = (0, 0);
    for round in 0..240 {
        let (h, w) = *random.pick(&[(3, 3), (2, 4), (2, 5), (4, 2), (3, 2), (1, 9)]);
        let puzzle = generate::cut_board(&mut random, h, w).puzzle;
        let all = rules::all_solutions(&puzzle);
        solutions += all.len();
        for _ in 0..60 {
            let (walls, opens) = *random.pick(&[(20, 20), (40, 40), (50, 50), (30, 60)]);
            let decided = generate::scatter(&mut random, puzzle.borders(), walls, opens);
            let puzzle = puzzle.clone();
            let board = Board { puzzle, decided };
            if let Some(reason) = reason(&board) {
                let states = board.states();
                assert!(
                    reason.iter().all(|l| holds(&states, l)),
                    "{round} {board:?}"
                );
                assert!(!all.iter().any(|s| contained(s, &reason)), "{board:?}");
                reasons += 1;
            }
        }
    }
    assert!(reasons > 1000 && solutions > 100, "{reasons} {solutions}");
}

/// A solved page whose solution is known, with literals of it and some against it.
fn known(random: &mut Random, largest_side: usize) -> (Cut, Board) {
    let h = 2 * random.between(1, largest_side / 2);
    let w = random.between(1, largest_side);
    let largest = random.between(1, 9);
    let cut = generate::solved_cut(random, h, w, largest);
    let literals = random.between(20, 100);
    let clues = *random.pick(&[0, 20, 100]);
    let mut board = generate::part_of(random, &cut, literals, clues);
    let wrong = *random.pick(&[0, 1, 3, 20, 50]);
    for literal in &mut board.decided {
        literal.1 ^= random.chance(wrong);
    }
    (cut, board)
}

#[test]
fn known_solutions_contain_no_reason() {
    if skipped() {
        return;
    }
    let mut random = Random::new(22);
    let (mut passes, mut reasons) = (0, 0);
    for round in 0..4000 {
        let side = if round % 40 == 0 { 32 } else { 10 };
        let (cut, board) = known(&mut random, side);
        assert!(rules::is_solution(&board.puzzle, &cut.walls), "{cut:?}");
        match reason(&board) {
            None => passes += 1,
            Some(reason) => {
                let states = board.states();
                assert!(reason.iter().all(|l| holds(&states, l)), "{board:?}");
                assert!(!contained(&cut.walls, &reason), "{board:?}");
                reasons += 1;
            }
        }
    }
    assert!(passes > 300 && reasons > 1000, "{passes} {reasons}");
}

/// Whether the full setting of these walls passes.
fn full_passes(cut: &Cut, walls: &[bool]) -> bool {
    let decided = walls.iter().copied().enumerate().collect();
    let puzzle = cut.puzzle.clone();
    reason(&Board { puzzle, decided }).is_none()
}

#[test]
fn full_settings_pass_exactly_when_solutions() {
    if skipped() {
        return;
    }
    let mut random = Random::new(23);
    let (mut solved, mut unsolved) = (0, 0);
    for round in 0..1500 {
        let side = if round % 50 == 0 { 20 } else { 8 };
        let (h, w) = (random.between(1, side), random.between(2, side));
        let mut cut = generate::cut(&mut random, h, w);
        for (clue, &size) in cut.puzzle.clues.iter_mut().zip(&cut.sizes) {
            if size > 0 && random.chance(10) {
                *clue = size as i32 + i32::from(random.chance(2));
            }
        }
        let truth = rules::is_solution(&cut.puzzle, &cut.walls);
        assert_eq!(full_passes(&cut, &cut.walls), truth, "{cut:?}");
        solved += usize::from(truth);
        for _ in 0..4 {
            let mut walls = cut.walls.clone();
            let border = random.below(walls.len());
            walls[border] = !walls[border];
            let truth = rules::is_solution(&cut.puzzle, &walls);
            assert_eq!(full_passes(&cut, &walls), truth, "{border} {cut:?}");
            unsolved += usize::from(!truth);
        }
    }
    assert!(solved > 200 && unsolved > 1000, "{solved} {unsolved}");
}

#[test]
fn no_reason_is_too_long() {
    if skipped() {
        return;
    }
    let mut longest = 0;
    let mut judge = |board: &Board| {
        if let Some(found) = found(&mut published(board), board) {
            assert!(found.reason.len() <= book::PLACES, "{board:?}");
            longest = longest.max(found.reason.len());
        }
    };
    for named in bench::boards() {
        judge(&named.board);
    }
    let mut random = Random::new(24);
    for _ in 0..1500 {
        judge(&generate::board(&mut random, 32, 32));
    }
    assert_eq!(longest, book::PLACES, "the bound is reached");
}

/// Boards whose published list has many repeats.
#[test]
fn repeats_are_struck() {
    if skipped() {
        return;
    }
    let mut random = Random::new(30);
    let stairs = (3..=32).map(bench::stairs);
    let blocked = (0..400).map(|turn| blocked::board(&mut random, turn));
    let (mut twice_as_long, mut longest) = (0, 0);
    for board in stairs.chain(blocked) {
        let Some(found) = found(&mut published(&board), &board) else {
            continue;
        };
        twice_as_long += usize::from(found.listed.len() >= 2 * found.reason.len());
        longest = longest.max(found.listed.len());
    }
    println!("{twice_as_long} lists twice as long as the reason or more, the longest of {longest}");
    assert!(twice_as_long > 300 && longest > 8_000);
}

/// 02's sentence on lists of every kind: the first of equal literals stays, and the order.
#[test]
fn struck_lists() {
    let mut random = Random::new(32);
    for _ in 0..2_000 {
        let length = random.below(20);
        let literal = |_| (random.below(6), random.chance(50));
        let list: Vec<Literal> = (0..length).map(literal).collect();
        let first = |&at: &usize| !list[..at].contains(&list[at]);
        let wanted: Vec<Literal> = (0..list.len()).filter(first).map(|at| list[at]).collect();
        assert_eq!(struck(list.clone()), wanted, "{list:?}");
    }
}

#[test]
fn plain_check_is_the_published_one() {
    if skipped() {
        return;
    }
    let mut random = Random::new(25);
    for round in 0..30_000 {
        let side = if round % 200 == 0 { 32 } else { 8 };
        let board = generate::board(&mut random, side, side);
        found(&mut published(&board), &board);
    }
    for Named { board, .. } in bench::boards() {
        found(&mut published(&board), &board);
    }
}

#[test]
fn plain_parts_are_the_published_ones() {
    if skipped() {
        return;
    }
    let mut random = Random::new(26);
    for _ in 0..1000 {
        let board = generate::board(&mut random, 7, 7);
        let view = View::new(&board);
        let theirs = published(&board);
        for kind in KINDS {
            assert_eq!(view.groups(kind), &theirs.groups(kind), "{board:?}");
        }
        for block in 0..view.blocks.lists.len() {
            let inside = view.inside(&view.blocks, block);
            assert_eq!(inside, theirs.inside_block(block), "{board:?}");
        }
        for potential in 0..view.potential.lists.len() {
            assert_eq!(view.edge(potential), theirs.edge(potential), "{board:?}");
        }
        for (unit, cells) in view.units.lists.iter().enumerate() {
            let inside = view.inside(&view.units, unit);
            assert_eq!(inside, theirs.inside_unit(unit), "{board:?}");
            let shape = shapes::shape(&board.puzzle, cells);
            assert_eq!(shapes::transforms(&shape), theirs.transforms(unit));
        }
        paths(&mut random, &board);
    }
}

fn paths(random: &mut Random, board: &Board) {
    let view = View::new(board);
    let theirs = published(board);
    let blocks = theirs.groups(Kind::Blocks);
    for _ in 0..20 {
        let a = random.below(board.puzzle.cells());
        let b = if random.chance(50) {
            random.below(board.puzzle.cells())
        } else {
            *random.pick(&blocks.lists[blocks.ids[a]])
        };
        let path = theirs.path(a, b);
        assert_eq!(path.is_some(), blocks.ids[a] == blocks.ids[b]);
        assert_eq!(view.path(a, b), path.unwrap_or_default(), "{board:?}");
    }
}

#[test]
fn a_reason_alone_conflicts() {
    if skipped() {
        return;
    }
    let mut random = Random::new(27);
    for _ in 0..3000 {
        let board = generate::board(&mut random, 6, 6);
        let Some(reason) = reason(&board) else {
            continue;
        };
        let mut alone = fresh(&board.puzzle);
        for &(border, wall) in &reason {
            alone.decide(border, wall);
        }
        let second = alone.check().expect("a conflict");
        assert!(second.iter().all(|literal| reason.contains(literal)));
    }
}
