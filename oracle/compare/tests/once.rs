//! Each literal once: the longest reason, which names every border of the largest page, in memory that
//! is too short, just enough and longer; and boards whose published list has many repeats.

use compare::boards;
use compare::checks::{board_checks, Trial};
use compare::expected::{self, codes, note_source};
use compare::images::{self, ImageCall, Lent, MEMORY};
use compare::many;
use compare::ours::Memory;
use compare::previews::{preview, previews};
use compare::tally::counted;
use oracle::book::PLACES;
use oracle::page::{code, Board, Literal, Puzzle};
use oracle::random::Random;
use oracle::{bench, blocked, image};

// ---- every border named ----

/// Boards of 32x32 with every border open and a clue that is too small.
fn every_border_open() -> Vec<Board> {
    let one_colour = vec![0; 1_024];
    let halves: Vec<i32> = (0..1_024).map(|cell| i32::from(cell >= 512)).collect();
    let clued = |(colours, cell, clue): (&Vec<i32>, usize, i32)| {
        let mut puzzle = Puzzle::without_clues(32, 32, colours.clone());
        puzzle.clues[cell] = clue;
        bench::all_open(&puzzle)
    };
    let clues = [
        (&one_colour, 0, 1),
        (&one_colour, 1_023, 1_023),
        (&halves, 700, 511),
    ];
    clues.map(clued).into()
}

/// Inside of the whole page, all of it open: for each cell, below then right.
fn inside(puzzle: &Puzzle) -> Vec<Literal> {
    let cells = 0..puzzle.cells();
    let ahead = cells.flat_map(|cell| puzzle.ahead(cell));
    ahead.map(|(border, _)| (border, false)).collect()
}

#[test]
fn an_image_with_every_border_named() {
    let mut random = Random::new(120);
    for board in every_border_open() {
        let mut judge = images::Judge::default();
        let mut image = Lent::new(&mut random, &image::write(&board));
        for length in [0, 1, 2, 3_966, 3_967] {
            let mut memory = Lent::memory(&mut random, length);
            let number = judge.call(&mut image, &mut memory, ImageCall::Check);
            assert_eq!(number, 9, "{length}");
        }
        let words = codes(&inside(&board.puzzle)).into_iter();
        let wanted: Vec<u8> = words.flat_map(u16::to_le_bytes).collect();
        assert_eq!(wanted.len(), 3_968);
        // No byte of the memory is what the reason has there, so that every one is written.
        let other: Vec<u8> = wanted.iter().map(|byte| !byte).collect();
        for more in [0, 1, 2, 5] {
            let content = [&other[..], &vec![7; more]].concat();
            let mut memory = Lent::new(&mut random, &content);
            let number = judge.call(&mut image, &mut memory, ImageCall::Check);
            assert_eq!(number, 65_536 + 1_984, "{more}");
            assert!(memory.content() == [&wanted[..], &vec![7; more]].concat());
        }
    }
}

/// A check or a preview through crate probe, with this memory.
type Probe<'a> = Box<dyn Fn(&mut [u16]) -> usize + 'a>;

/// A call with the board's own tally as its record, which keeps its contents.
fn with_record(board: &Board, which: usize, code: usize, places: &mut [u16]) -> usize {
    let mut record = board.tally().counts();
    let number = counted(&image::write(board), which, code, &mut record, places);
    assert_eq!(record, board.tally().counts());
    number
}

/// Every way of checking the board through crate probe: previews are those of its last literal.
fn probes(board: &Board) -> Vec<(&'static str, Probe<'_>)> {
    let mut before = board.clone();
    let last = before.decided.pop().expect("a decided border");
    let (image, image_before) = (image::write(board), image::write(&before));
    vec![
        (
            "checks",
            Box::new(|places| Trial::new(board).check(1, places)),
        ),
        (
            "board checks",
            Box::new(move |places| board_checks(&image, 1, places)),
        ),
        (
            "previews",
            Box::new(move |places| previews(&image_before, last, 1, places)),
        ),
        (
            "check with a record",
            Box::new(|places| with_record(board, 2, 0, places)),
        ),
        (
            "preview with a record",
            Box::new(move |places| with_record(&before, 3, code(&last), places)),
        ),
    ]
}

#[test]
fn a_board_with_every_border_named() {
    for board in every_border_open() {
        let wanted = codes(&inside(&board.puzzle));
        assert_eq!(wanted.len(), 1_984);
        // No place of the memory is what the reason has there, so that every one is written.
        let other: Vec<u16> = wanted.iter().map(|code| !code).collect();
        for (name, probe) in probes(&board) {
            for length in [0, 1, 1_982, 1_983] {
                let mut places = other[..length].to_vec();
                assert_eq!(probe(&mut places), 9, "{name} {length}");
                assert!(places == other[..length], "{name} {length}");
            }
            for more in [0, 1, 2, 14_400] {
                let mut places = [&other[..], &vec![7; more]].concat();
                assert_eq!(probe(&mut places), 65_536 + 1_984, "{name} {more}");
                assert!(places == [&wanted[..], &vec![7; more]].concat(), "{name}");
            }
        }
    }
}

// ---- many repeats ----

#[test]
fn boards_with_many_repeats() {
    note_source();
    let mut random = Random::new(121);
    let mut judge = many::Judge::new(122);
    let mut on_images = images::Judge::default();
    let mut bytes = Lent::memory(&mut random, MEMORY);
    let mut places = Memory::new(&mut random, PLACES);
    let rounds = 100 * boards::rounds();
    for turn in 0..rounds {
        let board = blocked::board(&mut random, turn);
        judge.judge(&board);
        let mut image = Lent::new(&mut random, &image::write(&board));
        on_images.call(&mut image, &mut bytes, ImageCall::Check);
        let mut before = board.clone();
        let last = before.decided.pop().expect("a decided border");
        let previewed = preview(&image::write(&before), last, &mut places);
        assert!(previewed == expected::check(&board), "{last:?} {before:?}");
    }
    println!("{:?}", judge.seen);
    assert!(judge.seen.twice_as_long > rounds / 2);
}
