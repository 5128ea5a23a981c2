//! The exported calls on good images: lists of calls against the book and the published check, and full
//! settings against the rules by brute force.

use compare::boards::{self, page};
use compare::checks::number;
use compare::expected::note_source;
use compare::images::{compare_calls, ours, ImageCall, Judge, Lent, MEMORY, UNDO};
use oracle::book::{Book, Call};
use oracle::page::{Board, Literal, Puzzle};
use oracle::random::Random;
use oracle::{generate, image, rules};

/// The image of a fresh board, as the host's crate makes it.
fn fresh(puzzle: &Puzzle) -> Vec<u8> {
    let colours: Vec<u8> = puzzle.colours.iter().map(|&colour| colour as u8).collect();
    let board = dbchoco::Board::fresh(puzzle.h, puzzle.w, &colours, &puzzle.clues);
    let image = board.expect("a page").image().to_vec();
    let plain = Board {
        puzzle: puzzle.clone(),
        decided: vec![],
    };
    assert!(image == image::write(&plain), "{puzzle:?}");
    image
}

/// The book's call.
fn in_the_book(call: ImageCall, memory: usize) -> Call {
    match call {
        ImageCall::Decide(border, side) => Call::Decide((border as usize, side != 0)),
        ImageCall::Undo => Call::Undo,
        ImageCall::Check => Call::Check(memory / 2),
    }
}

#[test]
fn every_board_is_checked_as_published() {
    note_source();
    let mut judge = Judge::default();
    let (mut passes, mut conflicts, mut full) = (0, 0, 0);
    let mut memory = Lent::memory(&mut Random::new(70), MEMORY);
    let count = boards::each(71, |random, board| {
        let mut image = Lent::new(random, &image::write(board));
        let number = judge.call(&mut image, &mut memory, ImageCall::Check);
        passes += usize::from(number < 65_536);
        conflicts += usize::from(number >= 65_536);
        if board.undecided() == 0 {
            assert_eq!(number == 32, is_solution(board), "{board:?}");
            full += 1;
        }
    });
    println!("{count} boards: {passes} passes, {conflicts} conflicts; {full} full settings");
    assert!(passes > 100 && conflicts > 1000 && full > 100);
}

fn is_solution(board: &Board) -> bool {
    let mut walls = vec![false; board.puzzle.borders()];
    for &(border, wall) in &board.decided {
        walls[border] = wall;
    }
    rules::is_solution(&board.puzzle, &walls)
}

// ---- lists of calls by chance ----

const SIDES: [u32; 7] = [0, 1, 2, 256, 65_536, 1 << 31, u32::MAX];

fn a_call(random: &mut Random, puzzle: &Puzzle, literals: &[Literal]) -> ImageCall {
    match random.below(20) {
        0..=2 => ImageCall::Undo,
        3..=6 => ImageCall::Check,
        7 => {
            let near = puzzle.borders() as u32;
            let border = *random.pick(&[near, near + 1, 1_984, 65_536, 1 << 31, u32::MAX]);
            ImageCall::Decide(border, *random.pick(&SIDES))
        }
        8 if puzzle.borders() > 0 => {
            let border = random.below(puzzle.borders()) as u32;
            ImageCall::Decide(border, *random.pick(&SIDES))
        }
        _ if literals.is_empty() => ImageCall::Check,
        _ => {
            let &(border, wall) = random.pick(literals);
            ImageCall::Decide(border as u32, u32::from(wall))
        }
    }
}

/// The code of a decide or an undo by chance; most are not refused.
fn a_code(random: &mut Random, puzzle: &Puzzle, literals: &[Literal]) -> u16 {
    match random.below(40) {
        0..=5 => UNDO,
        6 => *random.pick(&[UNDO - 1, 3_968, 3_967, 2 * puzzle.borders() as u16]),
        _ if literals.is_empty() => UNDO,
        _ => {
            let &(border, wall) = random.pick(literals);
            2 * border as u16 + u16::from(wall)
        }
    }
}

#[test]
fn a_list_in_one_call_goes_as_its_calls_one_by_one() {
    let mut random = Random::new(74);
    let (mut whole, mut stopped, mut made) = (0, 0, 0);
    for round in 0..60 * boards::rounds() {
        let (puzzle, literals) = page(&mut random, round);
        let mut image = Lent::new(&mut random, &fresh(&puzzle));
        for _ in 0..40 {
            let length = random.below(12);
            let code = |_| a_code(&mut random, &puzzle, &literals);
            let codes: Vec<u16> = (0..length).map(code).collect();
            let done = compare_calls(&mut image, &codes);
            made += done;
            whole += usize::from(done == length);
            stopped += usize::from(done < length);
        }
    }
    println!("{whole} lists made whole, {stopped} stopped; {made} calls made");
    assert!(whole > 1_000 && stopped > 1_000);
}

/// Mostly just enough memory; at times too little, or an odd length.
fn a_length(random: &mut Random) -> usize {
    match random.below(6) {
        0 => *random.pick(&[0, 1, 2, MEMORY - 1, MEMORY - 2]),
        1 => *random.pick(&[MEMORY + 1, MEMORY + 2, 40_001]),
        _ => MEMORY,
    }
}

#[test]
fn lists_of_calls_answer_as_the_book() {
    note_source();
    let mut random = Random::new(72);
    let (mut calls, mut refused, mut conflicts) = (0, 0, 0);
    for round in 0..60 * boards::rounds() {
        let (puzzle, literals) = page(&mut random, round);
        let mut judge = Judge::default();
        let mut book = Book::open(&puzzle).unwrap();
        let mut image = Lent::new(&mut random, &fresh(&puzzle));
        let length = a_length(&mut random);
        let mut memory = Lent::memory(&mut random, length);
        for _ in 0..2 * literals.len().clamp(10, 150) {
            let call = a_call(&mut random, &puzzle, &literals);
            let got = judge.call(&mut image, &mut memory, call);
            let asked = in_the_book(call, length);
            let answer = book.answer(asked, &mut |page, decided| judge.reason(page, decided));
            assert_eq!(got, number(&answer), "{call:?}");
            calls += 1;
            refused += usize::from((1..10).contains(&got));
            conflicts += usize::from(got >= 65_536);
        }
        let decided = book.sequence().to_vec();
        assert!(image.content() == image::write(&Board { puzzle, decided }));
    }
    println!("{calls} calls: {refused} refused, {conflicts} conflicts");
    assert!(refused > calls / 20 && conflicts > calls / 50);
}

// ---- every list of calls on small pages ----

/// Every call worth making on a page: each literal, a border too many, an undo, a check.
fn letters(puzzle: &Puzzle) -> Vec<ImageCall> {
    let borders = puzzle.borders() as u32;
    let literals = (0..borders).flat_map(|border| [0, 1].map(|side| (border, side)));
    let mut letters: Vec<ImageCall> = literals.map(|(b, s)| ImageCall::Decide(b, s)).collect();
    letters.extend([
        ImageCall::Decide(borders, 1),
        ImageCall::Undo,
        ImageCall::Check,
    ]);
    letters
}

/// All lists of this length, one call further at each step; the count of calls.
fn lists(judge: &mut Judge, image: &Lent, memory: &mut Lent, list: (&[ImageCall], usize)) -> usize {
    let (letters, length) = list;
    if length == 0 {
        return 0;
    }
    let mut calls = 0;
    for &call in letters {
        let mut next = image.clone();
        judge.call(&mut next, memory, call);
        calls += 1 + lists(judge, &next, memory, (letters, length - 1));
    }
    calls
}

/// Every colouring of a page.
fn colourings(h: usize, w: usize) -> impl Iterator<Item = Puzzle> {
    (0..1usize << (h * w)).map(move |bits| {
        let colours = (0..h * w).map(|cell| (bits >> cell & 1) as i32).collect();
        Puzzle::without_clues(h, w, colours)
    })
}

#[test]
fn every_list_of_calls_on_small_pages() {
    note_source();
    let mut random = Random::new(73);
    let mut memory = Lent::memory(&mut random, MEMORY);
    let further = usize::from(boards::rounds() >= 30);
    let mut calls = 0;
    for (h, w, length) in [(1, 1, 5), (1, 2, 5), (2, 1, 5), (1, 3, 4), (2, 2, 3)] {
        for puzzle in colourings(h, w) {
            let letters = letters(&puzzle);
            let image = Lent::new(&mut random, &fresh(&puzzle));
            let list = (&letters[..], length + further);
            calls += lists(&mut Judge::default(), &image, &mut memory, list);
        }
    }
    println!("{calls} calls, all lists on small pages");
}

// ---- every setting of small pages ----

/// The setting of a number, written with three digits: undecided, wall, open.
fn setting(borders: usize, mut number: usize) -> Vec<Literal> {
    let mut decided = vec![];
    for border in 0..borders {
        if number % 3 > 0 {
            decided.push((border, number % 3 == 1));
        }
        number /= 3;
    }
    decided
}

/// Every setting of a page, full or not: against the published check, and against all solutions.
/// Gives the counts of settings and of solutions.
fn settings(random: &mut Random, puzzle: &Puzzle) -> (usize, usize) {
    let solutions = rules::all_solutions(puzzle);
    let mut judge = Judge::default();
    let mut memory = Lent::memory(random, MEMORY);
    let count = 3usize.pow(puzzle.borders() as u32);
    for number in 0..count {
        let decided = setting(puzzle.borders(), number);
        let puzzle = puzzle.clone();
        let board = Board { puzzle, decided };
        let mut image = Lent::new(random, &image::write(&board));
        let answer = judge.call(&mut image, &mut memory, ImageCall::Check);
        if board.undecided() == 0 {
            assert_eq!(answer == 32, is_solution(&board), "{board:?}");
        }
        if let Some(reason) = judge.reason(&board.puzzle, &board.decided) {
            let holds = |literal: &Literal| board.decided.contains(literal);
            let inside = |walls: &Vec<bool>| reason.iter().all(|&(b, wall)| walls[b] == wall);
            assert!(reason.iter().all(holds), "{board:?}");
            assert!(!solutions.iter().any(inside), "{board:?}");
        }
    }
    (count, solutions.len())
}

#[test]
fn every_setting_of_small_pages() {
    note_source();
    let mut random = Random::new(74);
    let (mut count, mut solutions) = (0, 0);
    for (h, w) in [(1, 1), (1, 2), (2, 1), (1, 3), (1, 4), (2, 2), (2, 3)] {
        for mut puzzle in colourings(h, w) {
            for clues in [false, true] {
                if clues && h * w == 6 && boards::rounds() < 30 {
                    // The short run has the largest page without clues alone.
                    continue;
                }
                if clues {
                    let cell = random.below(h * w);
                    puzzle.clues[cell] = random.between(0, 3) as i32;
                }
                let found = settings(&mut random, &puzzle);
                count += found.0;
                solutions += found.1;
            }
        }
    }
    println!("{count} settings, {solutions} solutions");
    assert!(solutions > 50);
}

#[test]
fn two_threads_at_a_time() {
    let run = |seed: u64| {
        move || {
            let mut random = Random::new(seed);
            let mut memory = vec![0; MEMORY];
            let mut numbers = vec![];
            for _ in 0..200 {
                let board = generate::board(&mut random, 8, 8);
                let mut image = image::write(&board);
                numbers.push(ours(&mut image, &mut memory, ImageCall::Check));
            }
            (numbers, memory)
        }
    };
    let together = [75, 76].map(|seed| std::thread::spawn(run(seed)));
    let alone = [75, 76].map(|seed| run(seed)());
    assert!(together.map(|thread| thread.join().unwrap()) == alone);
}
