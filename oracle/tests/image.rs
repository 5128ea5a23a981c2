//! The plain image calls: they answer as the book, and damaged images are alien.

use oracle::book::{Answer, Book, Call, PLACES};
use oracle::page::{code, Board, Puzzle};
use oracle::random::Random;
use oracle::{bench, generate, image, plain};

/// The number that 01 gives to an answer.
fn number(answer: &Answer) -> u32 {
    match answer {
        Answer::Done => 0,
        Answer::Refused(number) => *number,
        Answer::Pass(count) => 32 + *count as u32,
        Answer::Conflict(reason) => 65_536 + reason.len() as u32,
    }
}

#[test]
fn calls_on_an_image_answer_as_the_book() {
    let mut random = Random::new(61);
    for _ in 0..40 {
        let puzzle = generate::board(&mut random, 6, 6).puzzle;
        let mut book = Book::open(&puzzle).unwrap();
        let mut image = image::write(&Board {
            puzzle: puzzle.clone(),
            decided: vec![],
        });
        for _ in 0..60 {
            let border = random.below(puzzle.borders() + 2);
            let side = *random.pick(&[0, 1, 2, 256]);
            let mut memory = vec![7; 2 * PLACES];
            let (call, got) = match random.below(6) {
                0 => (Call::Undo, image::undo(&mut image)),
                1 | 2 => {
                    let got = image::check(&image, &mut memory, &mut plain::reason);
                    (Call::Check(PLACES), got)
                }
                _ => {
                    let got = image::decide(&mut image, border as u32, side);
                    (Call::Decide((border, side != 0)), got)
                }
            };
            let answer = book.answer(call, &mut plain::reason);
            assert_eq!(got, number(&answer));
            assert_eq!(memory, memory_after(&answer));
            assert_eq!(
                image::tally(&image).counts(),
                counted(&image, puzzle.borders())
            );
            let decided = book.sequence().to_vec();
            let puzzle = puzzle.clone();
            assert_eq!(image, image::write(&Board { puzzle, decided }));
        }
    }
}

/// How many of the first so many borders of an image are undecided, wall and open.
fn counted(image: &[u8], borders: usize) -> [usize; 3] {
    let borders = &image[5_122..][..borders];
    [0, 1, 2].map(|state| borders.iter().filter(|&&border| border == state).count())
}

fn memory_after(answer: &Answer) -> Vec<u8> {
    let mut memory = vec![7; 2 * PLACES];
    if let Answer::Conflict(reason) = answer {
        for (i, literal) in reason.iter().enumerate() {
            memory[2 * i] = (code(literal) % 256) as u8;
            memory[2 * i + 1] = (code(literal) / 256) as u8;
        }
    }
    memory
}

/// The largest page with every border open and a clue that is too small: its reason names every border.
#[test]
fn the_longest_reason_fills_the_least_memory() {
    let mut board = bench::all_open(&Puzzle::without_clues(32, 32, vec![0; 1_024]));
    board.puzzle.clues[0] = 1;
    let image = image::write(&board);
    let checked = |length: usize, byte: u8| {
        let mut memory = vec![byte; length];
        let number = image::check(&image, &mut memory, &mut plain::reason);
        (number, memory)
    };
    for short in [0, 3_966, 3_967] {
        assert_eq!(checked(short, 7), (9, vec![7; short]), "{short}");
    }
    let (number, memory) = checked(3_968, 0);
    assert_eq!(number, 65_536 + 1_984);
    assert!(checked(3_968, 255) == (number, memory.clone()));
    let longer = [&memory[..], &[255; 3]].concat();
    assert!(checked(3_971, 255) == (number, longer));
}

/// 1x3, 010 with a clue, border 1 wall and border 0 open.
fn sample() -> Vec<u8> {
    let mut puzzle = Puzzle::without_clues(1, 3, vec![0, 1, 0]);
    puzzle.clues[2] = 1;
    let decided = vec![(1, true), (0, false)];
    image::write(&Board { puzzle, decided })
}

/// A byte of the sample that is another.
const DAMAGES: [(usize, u8); 22] = [
    (0, 0),
    (0, 255),
    (0, 33),
    (1, 2),
    (1, 33),
    (2, 2),
    (5, 1),
    (1_026 + 3, 0x80),
    (1_026 + 12, 1),
    (5_122, 0),
    (5_122, 3),
    (5_122 + 2, 1),
    (7_106, 1),
    (7_106, 3),
    (7_108, 0),
    (7_108 + 4, 1),
    (11_076, 1),
    (11_077, 1),
    (11_078, 0),
    (11_079, 1),
    (11_080, 2),
    (11_081, 1),
];

#[test]
fn damaged_images_are_alien() {
    let good = sample();
    assert_eq!(good[5_122..5_124], [2, 1]);
    assert_eq!(good[7_106..7_112], [2, 0, 1, 0, 0, 0]);
    assert_eq!(good[11_076..], [0, 0, 1, 0, 1, 0]);
    for (at, byte) in DAMAGES {
        let mut bad = good.clone();
        bad[at] = byte;
        let before = bad.clone();
        let mut memory = [7; 10];
        assert_eq!(image::decide(&mut bad, 9, 1), 5, "{at} {byte}");
        assert_eq!(image::undo(&mut bad), 5, "{at} {byte}");
        assert_eq!(image::check(&bad, &mut memory, &mut plain::reason), 5);
        assert_eq!((bad, memory), (before, [7; 10]));
    }
    assert!(image::read(&good[1..]).is_none());
    assert!(image::read(&good[..11_076]).is_none(), "without a tally");
    assert!(image::read(&[&good[..], &[0]].concat()).is_none());
    assert!(image::read(&vec![0; image::LENGTH]).is_none());
}

#[test]
fn the_tally_of_a_fresh_image() {
    for (h, w, low, high) in [(1, 1, 0, 0), (2, 3, 7, 0), (32, 32, 192, 7)] {
        let puzzle = Puzzle::without_clues(h, w, vec![1; h * w]);
        let mut image = vec![7; image::LENGTH];
        assert_eq!(image::fresh(&mut image, &puzzle), 0);
        assert_eq!(image[11_076..], [low, high, 0, 0, 0, 0], "{h}x{w}");
    }
}

/// A side turned is alien, and with the tally turned too it is the image of another board.
#[test]
fn the_tally_goes_with_the_borders() {
    let mut image = sample();
    image[5_122] = 1;
    assert!(image::read(&image).is_none());
    image[11_076..].copy_from_slice(&[0, 0, 2, 0, 0, 0]);
    let board = image::read(&image).expect("a board");
    assert_eq!(board.decided, [(1, true), (0, true)]);
    for exchanged in [[2, 0, 0, 0, 0, 0], [0, 0, 0, 0, 2, 0], [0, 0, 0, 2, 0, 0]] {
        image[11_076..].copy_from_slice(&exchanged);
        assert!(image::read(&image).is_none(), "{exchanged:?}");
    }
}

#[test]
fn harmless_changes_are_not_alien() {
    let good = sample();
    let mut swapped = good.clone();
    swapped.swap(7_108, 7_110);
    assert_eq!(
        image::read(&swapped).unwrap().decided,
        [(0, false), (1, true)]
    );
    assert_eq!(image::read(&good).unwrap().decided, [(1, true), (0, false)]);
    let mut short = vec![7; 2 * PLACES - 1];
    assert_eq!(image::check(&good, &mut short, &mut plain::reason), 9);
    assert!(short.iter().all(|&byte| byte == 7));
    let mut odd = vec![7; 2 * PLACES + 1];
    assert_eq!(
        image::check(&good, &mut odd, &mut plain::reason),
        65_536 + 1
    );
}
