//! The host's drop-in beside the published constraint, both behind the published trait. What the
//! published one finds is taken with later repeats struck: as a clause it is the same.

use compare::boards;
use compare::checks::look_at_reason;
use compare::expected::codes;
use oracle::generate;
use oracle::page::{struck, Board};
use oracle::published::{PropagatorGenerator, Published, ReasonVerifier, SimpleCustomConstraint};
use oracle::random::Random;

fn rows<T: Clone>(board: &Board, flat: &[T]) -> Vec<Vec<T>> {
    flat.chunks(board.puzzle.w).map(<[T]>::to_vec).collect()
}

/// The drop-in, made as `solve_doublechoco` would make it.
fn ours(random: &mut Random, board: &Board) -> impl SimpleCustomConstraint + Clone {
    let puzzle = &board.puzzle;
    let clue = |&clue: &i32| (clue != -1 || random.chance(50)).then_some(clue);
    let clues: Vec<Option<i32>> = puzzle.clues.iter().map(clue).collect();
    let (color, num) = (rows(board, &puzzle.colours), rows(board, &clues));
    dbchoco::constraint!(SimpleCustomConstraint, &color, &num).expect("a Double Choco page")
}

fn theirs(board: &Board) -> impl SimpleCustomConstraint + Clone {
    let puzzle = &board.puzzle;
    Published::new(puzzle.h, puzzle.w, &puzzle.colours, &puzzle.clues).constraint()
}

/// How many inconsistencies were found, and how many published lists had repeats.
#[derive(Debug, Default)]
struct Seen {
    found: usize,
    struck: usize,
}

/// Notifies and undoes the same on all, by chance, and compares what they find: the first is the
/// drop-in, and of the others later repeats are struck.
fn beside(
    random: &mut Random,
    board: &Board,
    all: &mut [&mut dyn SimpleCustomConstraint],
    seen: &mut Seen,
) {
    let mut waiting = board.decided.clone();
    let mut standing = vec![];
    for one in all.iter_mut() {
        one.initialize_sat(board.puzzle.borders());
    }
    for _ in 0..2 * board.decided.len() + 4 {
        if random.chance(70) && !waiting.is_empty() {
            let literal = waiting.swap_remove(random.below(waiting.len()));
            standing.push(literal);
            all.iter_mut()
                .for_each(|one| one.notify(literal.0, literal.1));
        } else if let Some(literal) = standing.pop() {
            waiting.push(literal);
            all.iter_mut().for_each(|one| one.undo());
        }
        if random.chance(50) {
            let mut lists = all.iter_mut().map(|one| one.find_inconsistency());
            let ours = lists.next().expect("the drop-in");
            if let Some(reason) = &ours {
                look_at_reason(&codes(reason), standing.len());
                seen.found += 1;
            }
            for theirs in lists {
                seen.struck += usize::from(theirs != ours);
                assert!(theirs.map(struck) == ours, "{board:?}");
            }
        }
    }
}

#[test]
fn the_drop_in_finds_what_the_published_constraint_finds() {
    if !oracle::SOURCE {
        println!("skipped: no source");
        return;
    }
    let mut random = Random::new(90);
    let mut seen = Seen::default();
    for round in 0..150 * boards::rounds() {
        let side = if round % 30 == 0 { 32 } else { 8 };
        let board = generate::board(&mut random, side, side);
        let mut ours = ours(&mut random, &board);
        let mut theirs = theirs(&board);
        assert_eq!(ours.lazy_propagation(), theirs.lazy_propagation());
        beside(
            &mut random,
            &board,
            &mut [&mut ours, &mut theirs],
            &mut seen,
        );
    }
    println!("{seen:?}, the same on both");
    assert!(seen.found > 500 && seen.struck > 50);
}

/// The published verifier checks that each reason of the drop-in conflicts when it stands alone.
#[test]
fn the_published_verifier_takes_the_drop_in() {
    if !oracle::SOURCE {
        println!("skipped: no source");
        return;
    }
    let mut random = Random::new(91);
    for _ in 0..50 * boards::rounds() {
        let board = generate::board(&mut random, 8, 8);
        let ours = ours(&mut random, &board);
        let mut verified = ReasonVerifier::new(ours.clone(), ours.clone());
        beside(
            &mut random,
            &board,
            &mut [&mut verified],
            &mut Seen::default(),
        );
        // What `add_custom_constraint` of the published solver takes.
        let _: Box<dyn PropagatorGenerator> = Box::new(ours);
    }
}
