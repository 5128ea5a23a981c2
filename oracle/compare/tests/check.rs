//! The proved check against the published one: pass with its count, or the reason literal by literal,
//! in order and with later repeats struck; the memory beyond; refused calls.

use compare::checks::Trial;
use compare::many::Judge;
use compare::ours::Memory;
use compare::{boards, expected};
use oracle::book::{self, Answer, PLACES};
use oracle::page::{Board, Puzzle};
use oracle::random::Random;
use oracle::{bench, drafts};

#[test]
fn small_pages_whole() {
    expected::note_source();
    let mut judge = Judge::new(61);
    for w in 1..=3 {
        judge.page(1, w, &[-1, 0, 1, 2, 3]);
        judge.page(w, 1, &[-1, 0, 1, 2, 3]);
    }
    judge.page(1, 4, &[-1, 1, 2]);
    judge.page(2, 2, &[-1, 1, 2]);
    println!("{:?}", judge.seen);
    assert!(judge.seen.passes > 10_000 && judge.seen.conflicts > 100_000);
    assert!(judge.seen.struck > 100);
}

#[test]
fn pages_of_six_cells_whole() {
    let mut judge = Judge::new(62);
    judge.page(1, 5, &[-1]);
    judge.page(1, 6, &[-1]);
    judge.page(2, 3, &[-1]);
    println!("{:?}", judge.seen);
    assert!(judge.seen.passes > 10_000 && judge.seen.conflicts > 100_000);
    assert!(judge.seen.struck > 2_000 && judge.seen.twice_as_long > 500);
}

#[test]
fn generated_boards() {
    let mut judge = Judge::new(63);
    judge.generated(64, 3000);
    for named in bench::boards().into_iter().chain(boards::named()) {
        judge.judge(&named.board);
    }
    println!("{:?}", judge.seen);
    assert!(judge.seen.passes > 500 && judge.seen.conflicts > 500);
    assert!(judge.seen.longest == PLACES);
    assert!(judge.seen.struck > 150 && judge.seen.twice_as_long > 100);
}

/// Pages with clues at, above and far above half the cells.
#[test]
fn drafts() {
    let mut judge = Judge::new(71);
    judge.page(2, 2, &[-1, 3, i32::MAX]);
    println!("{:?}", judge.seen);
    assert!(judge.seen.passes > 500 && judge.seen.literals > 10_000);
    let mut judge = Judge::new(72);
    let mut random = Random::new(73);
    for turn in 0..2_640 {
        let board = drafts::draft(&mut random, turn);
        if drafts::above_half(&board.puzzle) {
            judge.judge(&board);
        }
    }
    println!("{:?}", judge.seen);
    assert!(judge.seen.passes > 20 && judge.seen.literals > 1_000);
    assert!(judge.seen.empty_reasons > 200);
}

fn chosen() -> Vec<Board> {
    let all = bench::boards().into_iter().chain(boards::named());
    all.map(|named| named.board).collect()
}

#[test]
fn short_memory_is_refused() {
    let mut random = Random::new(65);
    for board in chosen() {
        let length = *random.pick(&[0, 1, random.clone().below(PLACES), PLACES - 1]);
        let mut memory = Memory::new(&mut random, length);
        let answer = Trial::new(&board).answer(&mut memory);
        assert!(answer == Answer::Refused(book::SHORT), "{length} {board:?}");
    }
}

/// Checks again and again answer the same and leave the same memory; no check leaves it as it was.
#[test]
fn later_checks_repeat_the_answer() {
    let mut random = Random::new(66);
    for board in chosen() {
        let trial = Trial::new(&board);
        let fresh: Vec<u16> = (0..PLACES).map(|_| random.word() as u16).collect();
        let (mut none, mut once, mut often) = (fresh.clone(), fresh.clone(), fresh.clone());
        assert_eq!(trial.check(0, &mut none), 0);
        assert!(none == fresh);
        assert_eq!(trial.check(1, &mut once), trial.check(3, &mut often));
        assert!(once == often, "{board:?}");
    }
}

/// The stream of checks ends as the check of its last board does.
#[test]
fn streams_end_with_the_last_check() {
    let mut random = Random::new(67);
    for board in chosen() {
        if board.puzzle.cells() > 64 {
            continue;
        }
        let trial = Trial::new(&board);
        let mut memory: Vec<u16> = (0..PLACES).map(|_| random.word() as u16).collect();
        let fresh = memory.clone();
        let number = trial.stream(&mut memory);
        let mut wanted = fresh;
        for count in 1..=board.decided.len() {
            let mut part = trial.clone();
            part.codes.truncate(count);
            part.check(1, &mut wanted);
        }
        assert_eq!(number, trial.check(1, &mut wanted));
        assert!(memory == wanted, "{board:?}");
    }
}

/// Decides of a border that is not there or is taken leave the board.
#[test]
fn refused_decides_change_nothing() {
    let mut random = Random::new(68);
    let mut memory = Memory::new(&mut random, PLACES);
    for board in chosen() {
        let plain = Trial::new(&board);
        let mut more = plain.clone();
        more.codes.clear();
        for &code in &plain.codes {
            let off = (2 * board.puzzle.borders() + random.below(50)) as u16;
            let taken = code ^ random.below(2) as u16;
            more.codes.extend([off, code, taken, 65_535]);
        }
        assert!(
            more.answer(&mut memory) == plain.answer(&mut memory),
            "{board:?}"
        );
    }
}

/// One thing wrong with a puzzle, or none.
fn spoiled(random: &mut Random) -> Trial {
    let (h, w) = (random.between(1, 6), random.between(1, 6));
    let colours = (0..h * w).map(|_| random.below(2) as i32).collect();
    let board = Board {
        puzzle: Puzzle::without_clues(h, w, colours),
        decided: vec![],
    };
    let mut trial = Trial::new(&board);
    for _ in 0..random.below(3) {
        match random.below(5) {
            0 => trial.h = *random.pick(&[0, 33, usize::MAX]),
            1 => trial.w = *random.pick(&[0, 33, usize::MAX]),
            2 => trial.colours.push(0),
            3 => trial.colours[0] = *random.pick(&[2, 255]),
            _ => trial.clues[0] = *random.pick(&[-2, i32::MIN, i32::MAX]),
        }
    }
    trial
}

#[test]
fn refused_puzzles_give_their_number() {
    let mut random = Random::new(69);
    let mut seen = [0; 6];
    for _ in 0..5000 {
        let trial = spoiled(&mut random);
        let length = *random.pick(&[0, PLACES - 1, PLACES]);
        let mut memory = Memory::new(&mut random, length);
        let puzzle = Puzzle {
            h: trial.h,
            w: trial.w,
            colours: trial
                .colours
                .iter()
                .map(|&colour| i32::from(colour))
                .collect(),
            clues: trial.clues.clone(),
        };
        let wanted = match book::refusal(&puzzle) {
            Some(number) => Answer::Refused(number),
            None if length < PLACES => Answer::Refused(book::SHORT),
            None => expected::check(&Board {
                puzzle,
                decided: vec![],
            }),
        };
        let answer = trial.answer(&mut memory);
        assert!(answer == wanted, "{answer:?} {trial:?}");
        seen[match answer {
            Answer::Refused(book::SHORT) => 0,
            Answer::Refused(number) => number as usize,
            _ => 5,
        }] += 1;
    }
    assert!(seen.iter().all(|&count| count > 100), "{seen:?}");
}
