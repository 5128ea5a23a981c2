//! Document 01's "Small boards" on the published code.

mod common;

use common::{published, skipped};
use oracle::book::{self, Answer, Call, PLACES};
use oracle::page::{Board, Literal, Puzzle};
use oracle::{published as source, rules};

/// Literals from text such as "0w 1o".
fn literals(text: &str) -> Vec<Literal> {
    let literal = |word: &str| {
        let (number, side) = word.split_at(word.len() - 1);
        (number.parse().unwrap(), side == "w")
    };
    text.split_whitespace().map(literal).collect()
}

fn puzzle(h: usize, w: usize, colours: &str, clues: &[(usize, i32)]) -> Puzzle {
    let colours = colours.bytes().map(|digit| i32::from(digit - b'0'));
    let mut puzzle = Puzzle::without_clues(h, w, colours.collect());
    for &(cell, clue) in clues {
        puzzle.clues[cell] = clue;
    }
    puzzle
}

/// The answer to a check after these decides.
fn answer(puzzle: &Puzzle, decided: &str) -> Answer {
    let mut calls: Vec<Call> = literals(decided).into_iter().map(Call::Decide).collect();
    calls.push(Call::Check(PLACES));
    let answers = book::book(puzzle, &calls, &mut source::check).unwrap();
    answers.last().unwrap().clone()
}

fn conflict(reason: &str) -> Answer {
    Answer::Conflict(literals(reason))
}

#[test]
fn border_numbers() {
    let page = puzzle(2, 3, "000000", &[]);
    assert_eq!(page.borders(), 7);
    assert_eq!(page.right(1, 1), 3);
    assert_eq!(page.below(0, 2), 6);
    for border in 0..7 {
        let (a, b) = page.ends(border);
        assert!(page.ahead(a).contains(&(border, b)));
        assert!(page.around(b).contains(&(border, a)));
    }
}

#[test]
fn published_borders_join_the_numbered_cells() {
    if skipped() {
        return;
    }
    for (h, w) in [(2, 3), (3, 2), (1, 4), (4, 1)] {
        let page = Puzzle::without_clues(h, w, vec![0; h * w]);
        for border in 0..page.borders() {
            let decided = vec![(border, false)];
            let board = Board {
                puzzle: page.clone(),
                decided,
            };
            let (a, b) = page.ends(border);
            let lists = published(&board).groups(oracle::page::Kind::Blocks).lists;
            assert!(lists.contains(&vec![a, b]));
        }
    }
}

#[test]
fn small_answers() {
    if skipped() {
        return;
    }
    assert_eq!(answer(&puzzle(1, 1, "0", &[]), ""), conflict(""));
    assert_eq!(answer(&puzzle(1, 2, "00", &[]), ""), conflict(""));
    let pair = puzzle(1, 2, "01", &[]);
    assert_eq!(answer(&pair, ""), Answer::Pass(1));
    assert_eq!(answer(&pair, "0o"), Answer::Pass(0));
    assert_eq!(answer(&pair, "0w"), conflict("0w"));
    assert_eq!(answer(&puzzle(1, 2, "01", &[(0, 1)]), ""), Answer::Pass(1));
    assert_eq!(answer(&puzzle(1, 2, "01", &[(0, 0)]), ""), conflict(""));
    assert_eq!(answer(&puzzle(1, 2, "01", &[(0, 2)]), ""), conflict(""));
    assert_eq!(
        answer(&puzzle(1, 3, "010", &[]), "0o 1o"),
        conflict("0o 1o")
    );
    let four = puzzle(1, 4, "0011", &[]);
    assert_eq!(answer(&four, "0o 1o 2o"), Answer::Pass(0));
    assert_eq!(answer(&four, "0w 1o 2o"), conflict("1o 2o 0w"));
    let square = puzzle(2, 2, "0101", &[]);
    assert_eq!(answer(&square, "0o 2o 3o 1w"), conflict("3o 0o 2o 1w"));
}

/// A wall that blocks the only placement, and stands at the edge of the unit beside.
#[test]
fn a_repeat_is_struck() {
    if skipped() {
        return;
    }
    let page = puzzle(1, 4, "0011", &[]);
    let board = Board {
        puzzle: page.clone(),
        decided: literals("0o 2w"),
    };
    let listed = published(&board).find_inconsistency();
    assert_eq!(listed, Some(literals("2w 0o 2w")));
    assert_eq!(answer(&page, "0o 2w"), conflict("2w 0o"));
}

#[test]
fn page_example() {
    if skipped() {
        return;
    }
    let check = Call::Check(PLACES);
    let calls = [
        check,
        Call::Decide((0, true)),
        check,
        Call::Undo,
        Call::Decide((0, false)),
        check,
    ];
    let answers = book::book(&puzzle(1, 2, "01", &[]), &calls, &mut source::check).unwrap();
    let kept: Vec<Answer> = answers.into_iter().filter(|a| *a != Answer::Done).collect();
    assert_eq!(kept, [Answer::Pass(1), conflict("0w"), Answer::Pass(0)]);
}

#[test]
fn small_transforms() {
    if skipped() {
        return;
    }
    let count = |h: usize, w: usize, decided: &str| {
        let board = Board {
            puzzle: Puzzle::without_clues(h, w, vec![0; h * w]),
            decided: literals(decided),
        };
        published(&board).transforms(0).len()
    };
    assert_eq!(count(1, 1, ""), 1);
    assert_eq!(count(1, 2, "0o"), 2);
    assert_eq!(count(2, 2, "0o 2o"), 4);
    let board = Board {
        puzzle: Puzzle::without_clues(1, 1, vec![0]),
        decided: vec![],
    };
    assert!(published(&board).transforms(1).is_empty());
}

#[test]
fn sizes() {
    let made = |h: usize, w: usize| book::refusal(&Puzzle::without_clues(h, w, vec![0; h * w]));
    assert_eq!(made(32, 32), None);
    assert_eq!(made(33, 1), Some(book::SIZE));
    assert_eq!(made(0, 1), Some(book::SIZE));
}

#[test]
fn rules_by_hand() {
    let solved = |puzzle: &Puzzle, walls: &[bool]| rules::is_solution(puzzle, walls);
    let pair = puzzle(1, 2, "01", &[]);
    assert!(solved(&pair, &[false]) && !solved(&pair, &[true]));
    assert!(!solved(&puzzle(1, 2, "00", &[]), &[false]));
    assert!(!solved(&puzzle(1, 2, "01", &[(1, 2)]), &[false]));
    // Two units of one colour in a block; a wall within a block; pieces that are not congruent.
    assert!(!solved(&puzzle(1, 3, "010", &[]), &[false, false]));
    assert!(!solved(
        &puzzle(2, 2, "0101", &[]),
        &[false, true, false, false]
    ));
    assert!(solved(&puzzle(2, 2, "0101", &[]), &[false; 4]));
    let two_rows = puzzle(2, 3, "000111", &[(0, 3), (5, 3)]);
    assert!(solved(&two_rows, &[false; 7]));
    assert!(solved(&puzzle(2, 4, "00010111", &[]), &[false; 10]));
    assert!(!solved(&puzzle(3, 4, "000001101111", &[]), &[false; 17]));
    assert!(rules::congruent(
        &[(0, 0), (0, 1), (1, 1)],
        &[(5, 5), (6, 5), (6, 4)]
    ));
    assert!(!rules::congruent(
        &[(0, 0), (0, 1), (0, 2)],
        &[(0, 0), (0, 1), (1, 1)]
    ));
}
