//! The listed transforms of every unit of the proved code against the published ones: cells and
//! connections in order, the counts, the memory beyond, and the refused calls.

use compare::boards;
use compare::expected::{self, numbers};
use compare::ours::{self, Counts, Memory, TRANSFORM_ROOM};
use oracle::page::{Board, Literal, Puzzle, Transform};
use oracle::random::Random;
use oracle::{generate, image, pieces, shapes};

const ALIEN: usize = 5;
const SHORT: usize = 9;

/// What was compared: units, transforms, connections over borders that are not open, and units by
/// the list of rows of `shapes::LISTS`.
#[derive(Debug, Default)]
struct Seen {
    units: usize,
    transforms: usize,
    largest: usize,
    not_open: usize,
    lists: [usize; 6],
}

/// The number in `LISTS` of the list of rows that these transforms were made by.
fn list_of(transforms: &[Transform]) -> usize {
    let rows = shapes::listed_rows(&transforms[0]);
    let found = shapes::LISTS.iter().position(|list| rows == *list);
    found.expect("one of the six lists")
}

/// How many open borders lie within a unit.
fn open_in_units(board: &Board) -> usize {
    let colours = &board.puzzle.colours;
    let inside = |&(border, wall): &Literal| {
        let (a, b) = board.puzzle.ends(border);
        !wall && colours[a] == colours[b]
    };
    board
        .decided
        .iter()
        .filter(|literal| inside(literal))
        .count()
}

/// What a call returns, and what it wrote.
fn asked(memory: &mut Memory<i32>, image: &[u8], unit: usize, k: usize) -> (Counts, Vec<i32>) {
    let mut counts = Counts::none(usize::MAX, 0);
    let written = memory.lend(|places| {
        counts = ours::transform(image, unit, k, places);
        2 * (counts.cells + counts.connections)
    });
    (counts, written.expect("no call is unfit"))
}

/// Every transform of every unit, and none past the last.
fn judge(memory: &mut Memory<i32>, board: &Board, seen: &mut Seen) {
    let image = image::write(board);
    let theirs = expected::transforms(board);
    for (unit, transforms) in theirs.iter().enumerate() {
        let listed = transforms.len();
        for (k, transform) in transforms.iter().enumerate() {
            let counts = Counts {
                outcome: 0,
                listed,
                cells: transform.0.len(),
                connections: transform.1.len(),
            };
            let right = (counts, numbers(transform));
            assert!(
                asked(memory, &image, unit, k) == right,
                "{unit} {k} {board:?}"
            );
            seen.largest = seen.largest.max(transform.0.len());
        }
        let none = (Counts::none(0, listed), vec![]);
        assert_eq!(asked(memory, &image, unit, listed), none);
        seen.units += 1;
        seen.transforms += listed;
        seen.lists[list_of(transforms)] += 1;
    }
    let connections: usize = theirs.iter().map(|listed| listed[0].1.len()).sum();
    seen.not_open += connections - open_in_units(board);
    let none = (Counts::none(0, 0), vec![]);
    for unit in [theirs.len(), usize::MAX] {
        assert_eq!(asked(memory, &image, unit, 0), none);
    }
    assert_eq!(asked(memory, &image, usize::MAX, usize::MAX), none);
}

#[test]
fn transforms_are_the_published_ones() {
    expected::note_source();
    let mut memory = Memory::signed(&mut Random::new(61), TRANSFORM_ROOM + 5);
    let mut seen = Seen::default();
    // Each unit is asked for by itself, so that one board in three is enough.
    let rounds = boards::rounds().div_ceil(3);
    let count = boards::each_of(62, rounds, |_, board| judge(&mut memory, board, &mut seen));
    println!("{count} boards, {seen:?}");
    assert!(seen.transforms > 100_000 && seen.largest == 1024 && seen.not_open > 1000);
}

/// Boards with a unit of each piece of `pieces::CLASSES`, turned and reflected; the fifth is the
/// pinwheel, whose quarter turn is the piece and whose flip is not.
#[test]
fn every_list_is_compared() {
    let mut random = Random::new(63);
    let mut memory = Memory::signed(&mut random, TRANSFORM_ROOM);
    for (list, piece) in pieces::CLASSES.iter().enumerate() {
        let mut seen = Seen::default();
        for turn in 0..8 {
            let piece = pieces::turned(piece, turn % 4, turn >= 4);
            for _ in 0..12 {
                if let Some(board) = generate::unit_board(&mut random, 9, 9, &piece) {
                    judge(&mut memory, &board, &mut seen);
                }
            }
        }
        println!("list {list}: {seen:?}");
        assert!(seen.lists[list] > 50, "{list}");
    }
}

/// An image with a few bytes changed, or of another length.
fn spoiled(random: &mut Random, board: &Board) -> Vec<u8> {
    let mut image = image::write(board);
    if random.chance(5) {
        image.resize(random.below(2 * image::LENGTH), 0);
        return image;
    }
    for _ in 0..=random.below(3) {
        // Most changes are in the size, and in the colours and clues of the first cells.
        let end = *random.pick(&[2, 10, 1100, image::LENGTH]);
        image[random.below(end)] = *random.pick(&[0, 1, 2, 3, 33, 255]);
    }
    image
}

/// "Groups or transforms asked of an alien board give 5 and none": which images are alien is asked of
/// `oracle::image`.
#[test]
fn alien_boards_give_none() {
    let mut memory = Memory::signed(&mut Random::new(64), TRANSFORM_ROOM);
    let (mut alien, mut known) = (0, 0);
    boards::each(65, |random, board| {
        let bytes = spoiled(random, board);
        let (unit, k) = (random.below(3), random.below(3));
        let (counts, written) = asked(&mut memory, &bytes, unit, k);
        if image::read(&bytes).is_none() {
            assert_eq!((counts, written), (Counts::none(ALIEN, 0), vec![]));
            alien += 1;
        } else {
            assert_eq!(counts.outcome, 0);
            known += 1;
        }
    });
    println!("{alien} alien boards, {known} known ones");
    assert!(alien > 1000 && known > 50);
}

#[test]
fn short_memory_is_refused() {
    let mut random = Random::new(66);
    let board = Board {
        puzzle: Puzzle::without_clues(2, 2, vec![0; 4]),
        decided: vec![],
    };
    let bytes = image::write(&board);
    let mut alien = bytes.clone();
    alien[0] = 33;
    for length in [
        0,
        1,
        2,
        TRANSFORM_ROOM - 1,
        TRANSFORM_ROOM,
        TRANSFORM_ROOM + 1,
    ] {
        let mut memory = Memory::signed(&mut random, length);
        let (counts, written) = asked(&mut memory, &bytes, 0, 0);
        if length < TRANSFORM_ROOM {
            assert_eq!((counts, written), (Counts::none(SHORT, 0), vec![]));
        } else {
            assert_eq!((counts.outcome, written), (0, vec![0, 0]));
        }
        // 5 is lower than 9.
        let (counts, _) = asked(&mut memory, &alien, 0, 0);
        assert_eq!(counts, Counts::none(ALIEN, 0));
    }
}
