//! Previews, through crate probe on the board that an image spells: lists of calls against the book,
//! every preview of small pages against decide and check on a copy and against the rules, alien
//! images, and memory that is short.

use compare::boards::{self, a_literal, page};
use compare::checks::{board_checks, number, Trial};
use compare::expected::{self, note_source};
use compare::images::{damage, ours, ImageCall, Judge, DAMAGES, MEMORY};
use compare::many::{puzzles, settings};
use compare::ours::Memory;
use compare::previews::{preview, previews};
use oracle::book::{Answer, Book, Call, PLACES};
use oracle::page::{Board, Literal, Puzzle};
use oracle::random::Random;
use oracle::{generate, image, rules};

/// How many previews passed, conflicted and were refused.
#[derive(Debug, Default)]
struct Seen {
    passes: usize,
    conflicts: usize,
    refused: [usize; 10],
}

impl Seen {
    fn add(&mut self, answer: &Answer) {
        match answer {
            Answer::Pass(_) => self.passes += 1,
            Answer::Conflict(_) => self.conflicts += 1,
            Answer::Refused(number) => self.refused[*number as usize] += 1,
            Answer::Done => panic!("a preview is never done"),
        }
    }
}

// ---- lists of calls by chance ----

/// A decide, an undo or a check on the image, as the book answers it.
fn other_call(random: &mut Random, book: &mut Book, image: &mut [u8], literals: &[Literal]) {
    let mut judge = Judge::default();
    let (call, asked) = match random.below(5) {
        0 => (ImageCall::Undo, Call::Undo),
        1 => (ImageCall::Check, Call::Check(PLACES)),
        _ if literals.is_empty() => (ImageCall::Undo, Call::Undo),
        _ => {
            let &(border, wall) = random.pick(literals);
            let call = ImageCall::Decide(border as u32, u32::from(wall));
            (call, Call::Decide((border, wall)))
        }
    };
    let got = ours(image, &mut [0; MEMORY], call);
    let wanted = book.answer(asked, &mut |page, decided| judge.reason(page, decided));
    assert_eq!(got, number(&wanted), "{call:?}");
}

#[test]
fn lists_of_calls_with_previews_answer_as_the_book() {
    note_source();
    let mut random = Random::new(90);
    let mut seen = Seen::default();
    for round in 0..60 * boards::rounds() {
        let (puzzle, decided) = page(&mut random, round);
        let mut judge = Judge::default();
        let mut book = Book::open(&puzzle).unwrap();
        let mut image = image::write(&Board {
            puzzle: puzzle.clone(),
            decided: vec![],
        });
        let lengths = [0, PLACES - 1, PLACES, PLACES, PLACES, PLACES + 1];
        for _ in 0..2 * decided.len().clamp(10, 100) {
            if random.chance(60) {
                other_call(&mut random, &mut book, &mut image, &decided);
                continue;
            }
            let literal = a_literal(&mut random, puzzle.borders(), &decided);
            let places = *random.pick(&lengths);
            let mut memory = Memory::new(&mut random, places);
            let got = preview(&image, literal, &mut memory);
            let asked = Call::Preview(literal, places);
            let wanted = book.answer(asked, &mut |page, decided| judge.reason(page, decided));
            assert!(got == wanted, "{asked:?} {got:?} {wanted:?} {puzzle:?}");
            seen.add(&got);
        }
        let decided = book.sequence().to_vec();
        assert!(image == image::write(&Board { puzzle, decided }));
    }
    println!("lists of calls: {seen:?}");
    assert!(seen.passes > 100 && seen.conflicts > 100);
    assert!([6, 7, 9].iter().all(|&number| seen.refused[number] > 50));
}

// ---- every preview of small pages ----

struct Walk {
    memory: Memory,
    solutions: Vec<Vec<bool>>,
    seen: Seen,
    full: [usize; 2],
}

impl Walk {
    fn every_preview(&mut self, board: &Board) {
        let image = image::write(board);
        for border in 0..=board.puzzle.borders() {
            for literal in [(border, true), (border, false)] {
                let answer = preview(&image, literal, &mut self.memory);
                self.seen.add(&answer);
                self.judge(board, literal, &answer);
            }
        }
    }

    /// The answer must be that of a decide, and where it is done of a check on the copy.
    fn judge(&mut self, board: &Board, literal: Literal, answer: &Answer) {
        let mut copy = image::write(board);
        let (border, wall) = literal;
        let decide = ImageCall::Decide(border as u32, u32::from(wall));
        let number = ours(&mut copy, &mut [], decide);
        if number != 0 {
            assert_eq!(answer, &Answer::Refused(number), "{literal:?} {board:?}");
            return;
        }
        let copy = image::read(&copy).expect("no alien image");
        let checked = Trial::new(&copy).answer(&mut self.memory);
        assert_eq!(answer, &checked, "{literal:?} {board:?}");
        assert_eq!(answer, &expected::check(&copy), "{literal:?} {board:?}");
        self.by_the_rules(&copy, answer);
    }

    /// No solution has all literals of the reason, and a full setting passes exactly if it is one.
    fn by_the_rules(&mut self, copy: &Board, answer: &Answer) {
        if let Answer::Conflict(reason) = answer {
            let has =
                |walls: &Vec<bool>| reason.iter().all(|&(border, wall)| walls[border] == wall);
            assert!(!self.solutions.iter().any(has), "{reason:?} {copy:?}");
        }
        if copy.undecided() == 0 {
            let mut walls = vec![false; copy.puzzle.borders()];
            for &(border, wall) in &copy.decided {
                walls[border] = wall;
            }
            let passed = *answer == Answer::Pass(0);
            assert_eq!(passed, self.solutions.contains(&walls), "{copy:?}");
            self.full[usize::from(passed)] += 1;
        }
    }
}

#[test]
fn every_preview_of_small_pages() {
    note_source();
    let mut walk = Walk {
        memory: Memory::new(&mut Random::new(91), PLACES + 3),
        solutions: vec![],
        seen: Seen::default(),
        full: [0; 2],
    };
    let pages: [(usize, usize, &[i32]); 6] = [
        (1, 1, &[-1, 0, 1, 2]),
        (1, 2, &[-1, 0, 1, 2]),
        (2, 1, &[-1, 0, 1, 2]),
        (1, 4, &[-1, 2]),
        (2, 2, &[-1, 2]),
        (3, 2, &[-1]),
    ];
    for (h, w, numbers) in pages {
        for puzzle in puzzles(h, w, numbers) {
            walk.solutions = rules::all_solutions(&puzzle);
            settings(&puzzle, &mut |board| walk.every_preview(board));
        }
    }
    let Walk { seen, full, .. } = walk;
    println!("small pages: {seen:?}; full settings failed and passed: {full:?}");
    assert!(seen.passes > 10_000 && seen.conflicts > 10_000);
    assert!(seen.refused[6] > 1_000 && seen.refused[7] > 1_000);
    assert!(full[0] > 1_000 && full[1] > 50);
}

// ---- alien images and short memory ----

#[test]
fn an_alien_image_comes_first() {
    note_source();
    let mut random = Random::new(92);
    let (mut alien, mut good) = (0, 0);
    for round in 0..2_000 * boards::rounds() {
        let board = generate::board(&mut random, 6, 6);
        let mut image = image::write(&board);
        for _ in 0..random.between(1, 3) {
            damage(&mut random, &mut image, round % DAMAGES);
        }
        let literal = (random.below(12), random.chance(50));
        let places = *random.pick(&[0, PLACES]);
        let mut memory = Memory::new(&mut random, places);
        let answer = preview(&image, literal, &mut memory);
        let checked = board_checks(&image, 1, &mut [0; PLACES]);
        let number = ours(&mut image, &mut [0; MEMORY], ImageCall::Check);
        assert_eq!(checked, number as usize, "{board:?}");
        let Some(board) = image::read(&image) else {
            assert_eq!(answer, Answer::Refused(5), "{literal:?} {board:?}");
            alien += 1;
            continue;
        };
        let mut book = Book::open(&board.puzzle).unwrap();
        for &literal in &board.decided {
            book.answer(Call::Decide(literal), &mut oracle::check);
        }
        let wanted = book.answer(Call::Preview(literal, places), &mut oracle::check);
        assert_eq!(answer, wanted, "{literal:?} {board:?}");
        good += 1;
    }
    println!("damaged images: {alien} alien, {good} good");
    assert!(alien > 500 && good > 100);
}

#[test]
fn every_length_of_an_image_and_of_memory() {
    let mut random = Random::new(93);
    let image = image::write(&Board {
        puzzle: Puzzle::without_clues(2, 3, vec![0, 0, 1, 0, 1, 1]),
        decided: vec![(0, false)],
    });
    for length in 0..=11_100 {
        let mut other = image.clone();
        other.resize(length, 0);
        let mut memory = Memory::new(&mut random, length % 3);
        let number = if length == image::LENGTH { 9 } else { 5 };
        let answer = preview(&other, (1, true), &mut memory);
        assert_eq!(answer, Answer::Refused(number), "{length}");
    }
    for places in (0..PLACES + 100)
        .step_by(7)
        .chain([PLACES - 1, PLACES, PLACES + 1])
    {
        let mut memory = vec![7; places];
        let mut number = |literal| previews(&image, literal, 1, &mut memory);
        assert_eq!([number((7, true)), number((0, true))], [6, 7]);
        assert_eq!(number((1, true)) == 9, places < PLACES, "{places}");
        assert_eq!(previews(&image, (1, true), 0, &mut memory), 0);
    }
}
