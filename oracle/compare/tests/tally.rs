//! The tally of an image, and lent tally records: every call on images whose tally or length is not
//! right, and through crate probe calls with records that are right, wrong, stale or not there.

use compare::boards::{self, a_literal, page};
use compare::checks::board_checks;
use compare::expected::{codes, note_source};
use compare::images::{our_calls, our_fresh, ours, ImageCall, Judge, MEMORY, UNDO};
use compare::ours::{asked, part, transform, Counts, Memory, PARTED, ROOM, TRANSFORM_ROOM};
use compare::previews::previews;
use compare::tally::{counted, reply};
use oracle::book::{Answer, Asked, Book, Call, PLACES};
use oracle::page::{Board, Literal, Puzzle, Tally, KINDS};
use oracle::random::Random;
use oracle::records::{wrong_records, Kept};
use oracle::{bench, generate, image};

/// The board of a puzzle with nothing decided.
fn bare(puzzle: &Puzzle) -> Board {
    Board {
        puzzle: puzzle.clone(),
        decided: vec![],
    }
}

/// Boards with small counts, with all three counts above 255, and with one of 1,984.
fn some_boards() -> Vec<Board> {
    let mut random = Random::new(110);
    let large = generate::noise(&mut random, 32, 32).puzzle;
    let mixed = Board {
        puzzle: large.clone(),
        decided: generate::scatter(&mut random, large.borders(), 35, 30),
    };
    assert!(mixed.tally().counts().iter().all(|&count| count > 255));
    vec![
        bare(&Puzzle::without_clues(1, 1, vec![1])),
        generate::cut_board(&mut random, 2, 3),
        generate::noise(&mut random, 5, 7),
        bench::all_open(&large),
        bare(&large),
        mixed,
    ]
}

// ---- the tally of an image ----

/// Memory for every call, whose contents are looked after.
struct Lent {
    bytes: Vec<u8>,
    places: Vec<u16>,
    integers: Vec<i32>,
}

impl Lent {
    fn new() -> Lent {
        Lent {
            bytes: vec![7; MEMORY],
            places: vec![7; ROOM],
            integers: vec![7; TRANSFORM_ROOM],
        }
    }

    /// Every call on the image gives 5 and leaves it. A record with the image's own counts, and one
    /// with those of the board, are left too.
    fn every_call_is_alien(&mut self, image: &[u8], board: &Board) {
        assert!(image::read(image).is_none(), "{board:?}");
        let mut same = image.to_vec();
        for call in [ImageCall::Decide(0, 1), ImageCall::Undo, ImageCall::Check] {
            assert_eq!(
                ours(&mut same, &mut self.bytes, call),
                5,
                "{call:?} {board:?}"
            );
        }
        assert_eq!(our_calls(&mut same, &[0]), 0, "{board:?}");
        assert_eq!(our_calls(&mut same, &[UNDO]), 0, "{board:?}");
        assert!(same == image, "{board:?}");
        self.every_call_of_crate_probe_is_alien(image, board);
        assert!(self.bytes.iter().all(|&byte| byte == 7));
        assert!(self.places.iter().all(|&place| place == 7));
        assert!(self.integers.iter().all(|&integer| integer == 7));
    }

    fn every_call_of_crate_probe_is_alien(&mut self, image: &[u8], board: &Board) {
        let places = &mut self.places;
        assert_eq!(board_checks(image, 1, places), 5, "{board:?}");
        assert_eq!(previews(image, (0, true), 1, places), 5, "{board:?}");
        let own = (image.len() == image::LENGTH).then(|| image::tally(image));
        for record in [Some(board.tally()), own].into_iter().flatten() {
            for which in 0..4 {
                let mut lent = record.counts();
                assert_eq!(
                    counted(image, which, 0, &mut lent, places),
                    5,
                    "{which} {board:?}"
                );
                assert_eq!(lent, record.counts(), "{which} {board:?}");
            }
        }
        for kind in KINDS {
            assert_eq!(asked(image, kind, places), 5, "{kind:?} {board:?}");
        }
        for which in 0..PARTED.len() {
            assert_eq!(part(image, which, 0, places), 0, "{which} {board:?}");
        }
        let none = Counts::none(5, 0);
        assert_eq!(
            transform(image, 0, 0, &mut self.integers),
            none,
            "{board:?}"
        );
    }
}

#[test]
fn every_value_of_every_byte_of_the_tally() {
    let mut lent = Lent::new();
    for board in some_boards() {
        let good = image::write(&board);
        for at in 11_076..11_082 {
            for more in 1..=255 {
                let mut image = good.clone();
                image[at] = image[at].wrapping_add(more);
                lent.every_call_is_alien(&image, &board);
            }
        }
    }
}

/// Counts off by one, moved from one to another and exchanged, and the two bytes of a count exchanged.
#[test]
fn wrong_counts_in_an_image() {
    let mut lent = Lent::new();
    let mut images = 0;
    for board in some_boards() {
        let good = image::write(&board);
        let mut wrong = vec![];
        for record in wrong_records(board.tally()) {
            let mut image = good.clone();
            for (index, count) in record.counts().into_iter().enumerate() {
                image::set(&mut image, "tal", index, count as i64 & 0xffff);
            }
            wrong.push(image);
        }
        for at in [11_076, 11_078, 11_080] {
            let mut image = good.clone();
            image.swap(at, at + 1);
            wrong.push(image);
        }
        wrong.retain(|image| *image != good);
        wrong
            .iter()
            .for_each(|image| lent.every_call_is_alien(image, &board));
        images += wrong.len();
    }
    assert!(images > 80, "{images}");
}

#[test]
fn lengths_about_that_of_an_image() {
    let mut lent = Lent::new();
    for board in some_boards() {
        let good = image::write(&board);
        let colours: Vec<u8> = board.puzzle.colours.iter().map(|&c| c as u8).collect();
        let (h, w) = (board.puzzle.h as u32, board.puzzle.w as u32);
        for length in 11_070..=11_090 {
            let mut image = good.clone();
            image.resize(length, 0);
            if length != 11_082 {
                lent.every_call_is_alien(&image, &board);
            }
            let number = our_fresh(&mut image, h, w, &colours, &board.puzzle.clues);
            assert_eq!(number, if length == 11_082 { 0 } else { 5 }, "{length}");
        }
        let undo = ours(&mut good.clone(), &mut [], ImageCall::Undo);
        assert_eq!(undo, if board.decided.is_empty() { 8 } else { 0 });
    }
}

// ---- lent records ----

/// The book of a board.
fn book_of(board: &Board) -> Book {
    let mut book = Book::open(&board.puzzle).unwrap();
    for &literal in &board.decided {
        book.answer(Call::Decide(literal), &mut oracle::check);
    }
    book
}

/// Calls of every kind: some are done or answered where the record is right, and some are refused with
/// 6, 7, 8 and 9 on most boards.
fn calls_of_every_kind(board: &Board) -> Vec<Call> {
    let borders = board.puzzle.borders();
    let taken = |border: &usize| board.decided.iter().any(|literal| literal.0 == *border);
    let undecided = (0..borders).find(|border| !taken(border));
    let first = board.decided.first().map(|literal| literal.0);
    let mut calls = vec![Call::Undo, Call::Check(PLACES), Call::Check(0)];
    for border in [undecided, first, Some(borders)].into_iter().flatten() {
        for wall in [true, false] {
            calls.push(Call::Decide((border, wall)));
            calls.push(Call::Preview((border, wall), PLACES));
            calls.push(Call::Preview((border, wall), 0));
        }
    }
    calls
}

#[test]
fn a_record_that_disagrees_comes_first() {
    note_source();
    let mut random = Random::new(111);
    let mut answered = [0; 10];
    for board in some_boards() {
        for call in calls_of_every_kind(&board) {
            let places = match call {
                Call::Check(places) | Call::Preview(_, places) => places,
                _ => 3,
            };
            let mut memory = Memory::new(&mut random, places);
            let mut replied = |record: Tally| {
                let record = Some(record);
                let mut image = image::write(&board);
                reply(&mut image, Asked { call, record }, &mut memory)
            };
            for wrong in wrong_records(board.tally()) {
                let alien = (Answer::Refused(5), Some(wrong));
                assert_eq!(replied(wrong), alien, "{call:?} {board:?}");
            }
            let right = board.tally();
            let asked = Asked {
                call,
                record: Some(right),
            };
            let wanted = book_of(&board).reply(asked, &mut oracle::check);
            assert_eq!(replied(right), wanted, "{call:?} {board:?}");
            if let Answer::Refused(number) = wanted.0 {
                answered[number as usize] += 1;
            } else {
                answered[0] += 1;
            }
        }
    }
    println!("answered, and refused with 1 to 9: {answered:?}");
    assert!([0, 6, 7, 8, 9].iter().all(|&number| answered[number] > 1));
    assert_eq!(answered[5], 0);
}

/// A record of another length is alien, also where its first words are right.
#[test]
fn records_of_another_length() {
    for board in some_boards() {
        let image = image::write(&board);
        let [undecided, walls, opens] = board.tally().counts();
        let words = [undecided, walls, opens, 0, undecided];
        for length in [0, 1, 2, 4, 5] {
            for which in 0..5 {
                let mut record = words[..length].to_vec();
                let mut memory = vec![7; PLACES];
                let number = counted(&image, which, 0, &mut record, &mut memory);
                assert_eq!(number, 5, "{which} {length} {board:?}");
                assert_eq!(record, words[..length], "{which} {board:?}");
                assert!(memory.iter().all(|&place| place == 7));
            }
        }
    }
}

/// An undo and a check take no literal; every number past 2 is a preview.
#[test]
fn numbers_of_the_calls() {
    for board in some_boards() {
        let image = image::write(&board);
        let number = |which: usize, code: usize| {
            let (mut record, mut memory) = (board.tally().counts(), vec![7; PLACES]);
            let number = counted(&image, which, code, &mut record, &mut memory);
            (number, record, memory)
        };
        for code in [1, 3_968, usize::MAX] {
            for which in [1, 2] {
                assert!(
                    number(which, code) == number(which, 0),
                    "{which} {code} {board:?}"
                );
            }
        }
        for which in [4, 255, 256, 65_536, 1 << 32, usize::MAX] {
            for code in [0, 1, 5, 2 * board.puzzle.borders(), usize::MAX] {
                assert!(
                    number(which, code) == number(3, code),
                    "{which} {code} {board:?}"
                );
                assert_ne!(number(which, code).0, 0, "{which} {code} {board:?}");
            }
        }
    }
}

// ---- every count ----

/// A decide or undo that is done, with a record: both hold the tally of the board then.
fn done(image: &mut [u8], call: Call, record: &mut Tally, after: &Board) {
    let asked = Asked {
        call,
        record: Some(*record),
    };
    let (answer, now) = reply(image, asked, &mut Memory::holding(vec![]));
    assert_eq!(
        (answer, now),
        (Answer::Done, Some(after.tally())),
        "{call:?}"
    );
    assert!(image == image::write(after), "{call:?}");
    *record = after.tally();
}

/// All borders of the largest page decided and undone, one by one and in one list.
#[test]
fn every_count_of_the_largest_page() {
    let puzzle = Puzzle::without_clues(32, 32, vec![0; 1_024]);
    let fresh = image::write(&bare(&puzzle));
    for wall in [true, false] {
        let mut board = bare(&puzzle);
        let (mut image, mut record) = (fresh.clone(), board.tally());
        for border in 0..1_984 {
            board.decided.push((border, wall));
            done(
                &mut image,
                Call::Decide((border, wall)),
                &mut record,
                &board,
            );
        }
        let mut at_once = fresh.clone();
        assert_eq!(our_calls(&mut at_once, &codes(&board.decided)), 1_984);
        assert!(at_once == image);
        assert_eq!(our_calls(&mut at_once, &[UNDO; 1_984]), 1_984);
        assert!(at_once == fresh);
        while board.decided.pop().is_some() {
            done(&mut image, Call::Undo, &mut record, &board);
        }
    }
}

// ---- lists of calls by chance ----

/// Calls without a record, with one that is taken by what they answer, and refused with 5.
#[derive(Debug, Default)]
struct Seen {
    unrecorded: usize,
    done: usize,
    passes: usize,
    conflicts: usize,
    refused: [usize; 10],
}

impl Seen {
    fn add(&mut self, asked: Asked, answer: &Answer) {
        match answer {
            _ if asked.record.is_none() => self.unrecorded += 1,
            Answer::Done => self.done += 1,
            Answer::Pass(_) => self.passes += 1,
            Answer::Conflict(_) => self.conflicts += 1,
            Answer::Refused(number) => self.refused[*number as usize] += 1,
        }
    }
}

fn a_call(random: &mut Random, borders: usize, literals: &[Literal]) -> (Call, usize) {
    let literal = a_literal(random, borders, literals);
    let places = *random.pick(&[0, PLACES - 1, PLACES, PLACES, PLACES, PLACES + 1]);
    match random.below(20) {
        0..=3 => (Call::Undo, random.below(4)),
        4..=6 => (Call::Check(places), places),
        7..=10 => (Call::Preview(literal, places), places),
        _ => (Call::Decide(literal), random.below(4)),
    }
}

#[test]
fn lists_of_calls_with_records_answer_as_the_book() {
    note_source();
    let mut random = Random::new(112);
    let mut seen = Seen::default();
    for round in 0..60 * boards::rounds() {
        let (puzzle, literals) = page(&mut random, round);
        let mut judge = Judge::default();
        let mut book = Book::open(&puzzle).unwrap();
        let mut kept = Kept::new(book.tally());
        let mut image = image::write(&bare(&puzzle));
        for _ in 0..2 * literals.len().clamp(10, 100) {
            let (call, places) = a_call(&mut random, puzzle.borders(), &literals);
            let record = kept.lend(&mut random, book.tally());
            let asked = Asked { call, record };
            let mut memory = Memory::new(&mut random, places);
            let got = reply(&mut image, asked, &mut memory);
            let wanted = book.reply(asked, &mut |page, decided| judge.reason(page, decided));
            assert!(got == wanted, "{asked:?} {got:?} {wanted:?} {puzzle:?}");
            kept.take_back(record, got.1);
            seen.add(asked, &got.0);
        }
        let decided = book.sequence().to_vec();
        assert!(image == image::write(&Board { puzzle, decided }));
    }
    println!("lists of calls: {seen:?}");
    assert!(seen.unrecorded > 1_000 && seen.done > 1_000 && seen.refused[5] > 1_000);
    assert!(seen.passes > 100 && seen.conflicts > 100);
    assert!(seen.refused[6..].iter().all(|&count| count > 50));
}
