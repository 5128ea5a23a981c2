//! The book over random lists of calls, previews, lent records and refused calls included.

mod common;

use common::{fresh, skipped};
use oracle::book::{self, Answer, Asked, Book, Call, PLACES};
use oracle::page::{self, Literal, Puzzle, State};
use oracle::published::{self, Published};
use oracle::random::Random;
use oracle::records::Kept;
use oracle::{generate, rules};

fn places(random: &mut Random) -> usize {
    match random.chance(20) {
        true => random.below(PLACES),
        false => PLACES + random.below(3),
    }
}

fn call(random: &mut Random, borders: usize) -> Call {
    let literal = (random.below(borders + 1), random.chance(50));
    match random.below(13) {
        0 => Call::Decide((borders + random.below(3), random.chance(50))),
        1..=5 => Call::Decide(literal),
        6 | 7 => Call::Undo,
        8 | 9 => Call::Check(places(random)),
        _ => Call::Preview(literal, places(random)),
    }
}

/// What 01 and 02 say of one call, told from the literals that stand and a board that was led along; a
/// preview takes its decision back.
fn told(board: &mut Published, borders: usize, call: Call) -> Answer {
    let stack = board.stack();
    match call {
        Call::Decide((border, _)) | Call::Preview((border, _), _) if border >= borders => {
            Answer::Refused(6)
        }
        Call::Decide((border, _)) | Call::Preview((border, _), _)
            if stack.iter().any(|l| l.0 == border) =>
        {
            Answer::Refused(7)
        }
        Call::Decide((border, wall)) => {
            board.decide(border, wall);
            Answer::Done
        }
        Call::Undo if stack.is_empty() => Answer::Refused(8),
        Call::Undo => {
            board.undo();
            Answer::Done
        }
        Call::Check(places) | Call::Preview(_, places) if places < 1_984 => Answer::Refused(9),
        Call::Check(_) => match board.check() {
            None => Answer::Pass(borders - stack.len()),
            Some(reason) => Answer::Conflict(reason),
        },
        Call::Preview((border, wall), places) => {
            board.decide(border, wall);
            let answer = told(board, borders, Call::Check(places));
            board.undo();
            answer
        }
    }
}

#[test]
fn a_board_led_along_answers_as_the_book() {
    if skipped() {
        return;
    }
    let mut random = Random::new(41);
    let mut refused = [0; 10];
    let (mut passes, mut conflicts) = (0, 0);
    for _ in 0..600 {
        let puzzle = generate::board(&mut random, 6, 6).puzzle;
        let mut board = fresh(&puzzle);
        let mut book = Book::open(&puzzle).unwrap();
        for _ in 0..random.below(120) {
            let call = call(&mut random, puzzle.borders());
            let answer = book.answer(call, &mut published::check);
            assert_eq!(answer, told(&mut board, puzzle.borders(), call));
            assert_eq!(book.sequence(), board.stack());
            match answer {
                Answer::Refused(number) => refused[number as usize] += 1,
                Answer::Pass(_) => passes += 1,
                Answer::Conflict(_) => conflicts += 1,
                Answer::Done => {}
            }
        }
    }
    assert!(refused[6..].iter().all(|&count| count > 20), "{refused:?}");
    assert!(passes > 100 && conflicts > 100, "{passes} {conflicts}");
}

/// The sequence after each call, by 01's sentences over the whole list so far.
fn sequence(borders: usize, calls: &[Call]) -> Vec<Literal> {
    let mut kept: Vec<Literal> = vec![];
    for &call in calls {
        match call {
            Call::Decide((border, wall)) => {
                if border < borders && kept.iter().all(|literal| literal.0 != border) {
                    kept.push((border, wall));
                }
            }
            Call::Undo => {
                kept.pop();
            }
            Call::Check(_) | Call::Preview(..) => {}
        }
    }
    kept
}

/// The literals that the last of the calls looks at: those that stand, and a preview's own.
fn looked_at(borders: usize, calls: &[Call]) -> Vec<Literal> {
    let mut standing = sequence(borders, calls);
    if let Some(Call::Preview(literal, _)) = calls.last() {
        standing.push(*literal);
    }
    standing
}

#[test]
fn the_book_asks_the_check_on_its_sequence() {
    let mut random = Random::new(42);
    for _ in 0..300 {
        let puzzle = generate::board(&mut random, 5, 5).puzzle;
        let borders = puzzle.borders();
        let calls: Vec<Call> = (0..60).map(|_| call(&mut random, borders)).collect();
        let mut asked = vec![];
        let mut check = |_: &Puzzle, decided: &[Literal]| {
            asked.push(decided.to_vec());
            (decided.len() % 2 == 1).then(|| decided.to_vec())
        };
        let answers = book::book(&puzzle, &calls, &mut check).unwrap();
        let mut asked = asked.into_iter();
        for (i, answer) in answers.iter().enumerate() {
            let standing = looked_at(borders, &calls[..=i]);
            match answer {
                Answer::Pass(count) => assert_eq!(*count, borders - standing.len()),
                Answer::Conflict(reason) => assert_eq!(reason, &standing),
                _ => continue,
            }
            assert_eq!(asked.next(), Some(standing));
        }
        assert_eq!(asked.next(), None);
    }
}

/// How many borders of each state there are, in the order of a record.
fn counted(puzzle: &Puzzle, sequence: &[Literal]) -> [usize; 3] {
    let states = page::states(puzzle, sequence);
    [State::Undecided, State::Wall, State::Open]
        .map(|wanted| states.iter().filter(|&&state| state == wanted).count())
}

/// Beside a book that is asked only the calls whose record agrees, or that are lent none.
#[test]
fn a_record_that_disagrees_comes_first() {
    let mut random = Random::new(44);
    let (mut alien, mut updated, mut kept_as_lent) = (0, 0, 0);
    for _ in 0..300 {
        let puzzle = generate::board(&mut random, 5, 5).puzzle;
        let mut book = Book::open(&puzzle).unwrap();
        let mut plain = book.clone();
        let mut kept = Kept::new(book.tally());
        let mut check = |_: &Puzzle, decided: &[Literal]| (decided.len() % 2 == 1).then(Vec::new);
        for _ in 0..60 {
            let call = call(&mut random, puzzle.borders());
            let record = kept.lend(&mut random, book.tally());
            let before = counted(&puzzle, plain.sequence());
            let (answer, now) = book.reply(Asked { call, record }, &mut check);
            if record.is_some_and(|record| record.counts() != before) {
                assert_eq!((answer, now), (Answer::Refused(5), record));
                alien += 1;
            } else {
                assert_eq!(answer, plain.answer(call, &mut check));
                let after = counted(&puzzle, plain.sequence());
                assert_eq!(now.map(|now| now.counts()), record.map(|_| after));
                updated += usize::from(record.is_some() && after != before);
                kept_as_lent += usize::from(record.is_some() && after == before);
            }
            assert_eq!(book.sequence(), plain.sequence());
            kept.take_back(record, now);
        }
    }
    assert!(alien > 2_000 && updated > 2_000, "{alien} {updated}");
    assert!(kept_as_lent > 2_000, "{kept_as_lent}");
}

#[test]
fn no_reason_of_a_list_rules_out_a_solution() {
    if skipped() {
        return;
    }
    let mut random = Random::new(43);
    let (mut stood, mut previewed) = (0, 0);
    for _ in 0..60 {
        let puzzle = generate::cut_board(&mut random, 2, 4).puzzle;
        let solutions = rules::all_solutions(&puzzle);
        let mut calls: Vec<Call> = (0..400)
            .map(|_| call(&mut random, puzzle.borders()))
            .collect();
        // Fewer undos, so that the board gets full.
        calls.retain(|call| *call != Call::Undo || random.chance(40));
        let answers = book::book(&puzzle, &calls, &mut published::check).unwrap();
        for (i, answer) in answers.iter().enumerate() {
            let mut standing = looked_at(puzzle.borders(), &calls[..=i]);
            standing.sort();
            let walls: Vec<bool> = standing.iter().map(|literal| literal.1).collect();
            let full = walls.len() == puzzle.borders();
            match answer {
                Answer::Pass(_) if full => assert!(solutions.contains(&walls)),
                Answer::Conflict(reason) => {
                    assert!(!full || !solutions.contains(&walls));
                    assert!(!solutions.iter().any(|s| common::contained(s, reason)));
                    stood += usize::from(full);
                    previewed += usize::from(matches!(calls[i], Call::Preview(..)));
                }
                _ => {}
            }
        }
    }
    assert!(stood > 20 && previewed > 100, "{stood} {previewed}");
}

#[test]
fn refused_puzzles() {
    let puzzle = |h, w, colours: Vec<i32>, clues: Vec<i32>| Puzzle {
        h,
        w,
        colours,
        clues,
    };
    let refusal = |h, w, colours, clues| book::refusal(&puzzle(h, w, colours, clues));
    assert_eq!(refusal(1, 2, vec![0, 1], vec![-1, 0]), None);
    assert_eq!(refusal(0, 1, vec![], vec![]), Some(1));
    assert_eq!(refusal(1, 0, vec![], vec![]), Some(1));
    assert_eq!(refusal(1, 33, vec![2; 33], vec![-2; 32]), Some(1));
    assert_eq!(refusal(1, 2, vec![2], vec![-2, -1]), Some(2));
    assert_eq!(refusal(1, 2, vec![0, 2], vec![-2]), Some(2));
    assert_eq!(refusal(1, 2, vec![0, 2], vec![-2, -1]), Some(3));
    assert_eq!(refusal(1, 2, vec![-1, 0], vec![-1, -1]), Some(3));
    assert_eq!(refusal(1, 2, vec![0, 1], vec![-1, -2]), Some(4));
    assert_eq!(refusal(1, 2, vec![0, 1], vec![i32::MIN, i32::MAX]), Some(4));
    assert_eq!(refusal(32, 32, vec![1; 1024], vec![i32::MAX; 1024]), None);
}
