//! Times of the proved code and of the published, in one process: `cargo run --release --bin bench`.
//! Words after `--` take only the parts with that name (groups, check, stream, preview, preview-check,
//! image-fresh, image-decide, image-undo, image-calls, image-check), and only the boards whose name has
//! one of the other words.
//!
//! A part of the work is a line of PARTS: how to make its two sides ready on a board.

use compare::boards;
use compare::checks::{board_checks, Trial};
use compare::expected::published;
use compare::images::{self, our_calls, our_fresh, ImageCall, MEMORY, UNDO};
use compare::ours::{Ours, ROOM};
use compare::previews::previews;
use compare::timing::{least, plain, times_of, Side, BATCHES, FEWEST};
use oracle::bench::{self, Named};
use oracle::book::PLACES;
use oracle::generate;
use oracle::image;
use oracle::page::{code, Board, Literal, Puzzle, KINDS};
use oracle::random::Random;
use std::hint::black_box;

/// Our work on a board, and the work that it is held against.
type Ready = fn(&Board) -> [Side; 2];

struct Part {
    name: &'static str,
    title: &'static str,
    /// What it is held against.
    other: &'static str,
    ready: Ready,
    boards: fn() -> Vec<Named>,
    /// How many units of work are one time on a board.
    units: fn(&Board) -> usize,
}

const RUST: &str = "the Rust";

const PARTS: [Part; 10] = [
    Part {
        name: "groups",
        title: "the three groupings",
        other: RUST,
        ready: groupings,
        boards: all_boards,
        units: |_| 1,
    },
    Part {
        name: "check",
        title: "one check",
        other: RUST,
        ready: check,
        boards: bench::boards,
        units: |_| 1,
    },
    Part {
        name: "stream",
        title: "one check, of a board that has one more border decided each time",
        other: RUST,
        ready: stream,
        boards: streams,
        units: |board| board.decided.len().max(1),
    },
    Part {
        name: "preview",
        title: "one preview; the Rust decides, checks and undoes",
        other: RUST,
        ready: preview,
        boards: bench::boards,
        units: |_| 1,
    },
    Part {
        name: "preview-check",
        title: "one preview, and one check of the board with the literal decided",
        other: "the check",
        ready: preview_check,
        boards: bench::boards,
        units: |_| 1,
    },
    Part {
        name: "image-fresh",
        title: "a fresh image; the Rust makes its board",
        other: RUST,
        ready: image_fresh,
        boards: bench::boards,
        units: |_| 1,
    },
    Part {
        name: "image-decide",
        title: "decide on an image; the Rust decides and undoes",
        other: RUST,
        ready: image_decide,
        boards: bench::boards,
        units: |_| 1,
    },
    Part {
        name: "image-undo",
        title: "undo on an image; the Rust undoes and decides",
        other: RUST,
        ready: image_undo,
        boards: bench::boards,
        units: |_| 1,
    },
    Part {
        name: "image-calls",
        title: "one undo or decide on an image, of a list of up to 200 in one call",
        other: RUST,
        ready: image_calls,
        boards: bench::boards,
        units: |board| 2 * board.decided.len().clamp(1, 100),
    },
    Part {
        name: "image-check",
        title: "check on an image",
        other: RUST,
        ready: image_check,
        boards: bench::boards,
        units: |_| 1,
    },
];

fn all_boards() -> Vec<Named> {
    bench::boards().into_iter().chain(boards::named()).collect()
}

/// Our side has the probe's copies too: colours and borders in, the groups out.
fn groupings(board: &Board) -> [Side; 2] {
    let ours = Ours::new(board);
    let theirs = published(board);
    let mut memory = vec![0; ROOM];
    let our_work = move || {
        for kind in KINDS {
            black_box(ours.groups(kind, &mut memory));
        }
    };
    let their_work = move || {
        black_box(theirs.group_counts());
    };
    [plain(our_work), plain(their_work)]
}

/// Our work on the board that an image spells, so many times for each reading. The reading is taken
/// off. One time for each: of several in one call the compiler does at once what is the same in all.
fn on_board(board: &Board, work: impl Fn(&[u8], usize, &mut [u16]) + Clone + 'static) -> Side {
    let image = image::write(board);
    let run = |each: usize| {
        let (image, work, mut memory) = (image.clone(), work.clone(), vec![0; PLACES]);
        times_of(move || work(&image, black_box(each), &mut memory))
    };
    Side {
        run: run(1),
        less: Some(run(0)),
    }
}

fn checking(board: &Board) -> Side {
    on_board(board, |image, times, memory| {
        black_box(board_checks(image, times, memory));
    })
}

fn check(board: &Board) -> [Side; 2] {
    let mut theirs = published(board);
    let their_work = move || {
        black_box(theirs.find_inconsistency());
    };
    [checking(board), plain(their_work)]
}

fn image_fresh(board: &Board) -> [Side; 2] {
    let mut fresh = board.clone();
    fresh.decided.clear();
    let puzzle = board.puzzle.clone();
    let (h, w) = (puzzle.h as u32, puzzle.w as u32);
    let colours: Vec<u8> = puzzle.colours.iter().map(|&colour| colour as u8).collect();
    let mut image = image::write(board);
    let our_work = move || {
        black_box(our_fresh(&mut image, h, w, &colours, &puzzle.clues));
    };
    let their_work = move || {
        black_box(published(&fresh));
    };
    [plain(our_work), plain(their_work)]
}

/// Our call on a board's image, which is put back after it: a border and at most four numbers of two bytes, two of
/// them of the tally.
fn on_image(board: &Board, call: ImageCall) -> Side {
    let mut memory = vec![0; MEMORY];
    let before = image::write(board);
    let mut image = before.clone();
    images::ours(&mut image, &mut memory, call);
    let differs = |&at: &usize| before[at] != image[at];
    let changed: Vec<usize> = (0..before.len()).filter(differs).collect();
    image.copy_from_slice(&before);
    plain(move || {
        black_box(images::ours(&mut image, &mut memory, call));
        for &at in &changed {
            image[at] = before[at];
        }
    })
}

/// The board without its last literal if it is full, so that there is a border to decide.
fn with_room(board: &Board) -> Board {
    let mut board = board.clone();
    if board.undecided() == 0 {
        board.decided.pop();
    }
    board
}

/// A border of the board that is undecided, if it has one.
fn undecided(board: &Board) -> Option<usize> {
    let taken = |border: &usize| board.decided.iter().any(|literal| literal.0 == *border);
    (0..board.puzzle.borders()).find(|border| !taken(border))
}

fn previewing(board: &Board, literal: Literal) -> Side {
    on_board(board, move |image, times, memory| {
        black_box(previews(image, literal, times, memory));
    })
}

/// The preview of a wall on the first undecided border.
fn preview(board: &Board) -> [Side; 2] {
    let board = with_room(board);
    let border = undecided(&board);
    let mut theirs = published(&board);
    let their_work = move || {
        if let Some(border) = black_box(border) {
            theirs.decide(border, true);
            black_box(theirs.find_inconsistency());
            theirs.undo();
        }
    };
    let literal = (border.unwrap_or(0), true);
    [previewing(&board, literal), plain(their_work)]
}

fn preview_check(board: &Board) -> [Side; 2] {
    let board = with_room(board);
    let literal = undecided(&board).map(|border| (border, true));
    let mut copy = board.clone();
    copy.decided.extend(literal);
    [
        previewing(&board, literal.unwrap_or((0, true))),
        checking(&copy),
    ]
}

fn image_decide(board: &Board) -> [Side; 2] {
    let board = with_room(board);
    let border = undecided(&board);
    let mut theirs = published(&board);
    let their_work = move || {
        if let Some(border) = black_box(border) {
            theirs.decide(border, true);
            theirs.undo();
        }
    };
    let call = ImageCall::Decide(border.unwrap_or(0) as u32, 1);
    [on_image(&board, call), plain(their_work)]
}

fn image_undo(board: &Board) -> [Side; 2] {
    let mut board = board.clone();
    if board.decided.is_empty() {
        let added = undecided(&board).map(|border| (border, true));
        board.decided.extend(added);
    }
    let last = board.decided.last().copied();
    let mut theirs = published(&board);
    let their_work = move || {
        if let Some((border, wall)) = black_box(last) {
            theirs.undo();
            theirs.decide(border, wall);
        }
    };
    [on_image(&board, ImageCall::Undo), plain(their_work)]
}

/// Undos of the last decisions, up to 100, and the same decides again, in one list. A board without any has no calls.
fn image_calls(board: &Board) -> [Side; 2] {
    let board = board.clone();
    let mut theirs = published(&board);
    let back: Vec<Literal> = board.decided.iter().rev().take(100).copied().collect();
    let decides: Vec<u16> = back.iter().rev().map(|l| code(l) as u16).collect();
    let codes = [vec![UNDO; back.len()], decides].concat();
    let mut image = image::write(&board);
    let their_work = move || {
        for _ in black_box(&back) {
            theirs.undo();
        }
        for &(border, wall) in back.iter().rev() {
            theirs.decide(border, wall);
        }
    };
    let our_work = move || {
        black_box(our_calls(&mut image, &codes));
    };
    [plain(our_work), plain(their_work)]
}

fn image_check(board: &Board) -> [Side; 2] {
    let mut theirs = published(board);
    let their_work = move || {
        black_box(theirs.find_inconsistency());
    };
    [on_image(board, ImageCall::Check), plain(their_work)]
}

/// Decides the board's literals one after another, with a check after each.
fn stream(board: &Board) -> [Side; 2] {
    let trial = Trial::new(board);
    let less = trial.clone();
    let (mut memory, mut less_memory) = (vec![0; PLACES], vec![0; PLACES]);
    let ours = Side {
        run: times_of(move || {
            black_box(trial.stream(&mut memory));
        }),
        less: Some(times_of(move || {
            black_box(less.check(1, &mut less_memory));
        })),
    };
    let decided = board.decided.clone();
    let mut theirs = published(&Board {
        puzzle: board.puzzle.clone(),
        decided: vec![],
    });
    let their_work = move || {
        for &(border, wall) in &decided {
            theirs.decide(border, wall);
            black_box(theirs.find_inconsistency());
        }
        for _ in &decided {
            theirs.undo();
        }
    };
    [ours, plain(their_work)]
}

/// Boards for streams: the decides lead to a solution, or some way before it to a conflict.
fn streams() -> Vec<Named> {
    let mut list = vec![];
    for (n, copies) in [(8, 4), (16, 2), (32, 1)] {
        for copy in 1..=copies {
            let mut random = Random::new((100 * n + copy) as u64);
            let cut = generate::solved_cut(&mut random, n, n, 6);
            let solved = generate::part_of(&mut random, &cut, 100, 10);
            let mut turned = solved.clone();
            let middle = turned.decided.len() / 2;
            turned.decided[middle].1 = !turned.decided[middle].1;
            for (end, board) in [("solution", solved), ("conflict", turned)] {
                let name = format!("{n}x{n} to a {end}, {copy}");
                list.push(Named { name, board });
            }
        }
    }
    list
}

/// A page of one cell: what does not depend on the page.
fn one_cell() -> Named {
    Named {
        name: "one cell".to_string(),
        board: Board {
            puzzle: Puzzle::without_clues(1, 1, vec![0]),
            decided: vec![],
        },
    }
}

/// Prints one line; gives the ratio.
fn line(part: &Part, named: &Named) -> f64 {
    let units = 1e6 / (part.units)(&named.board) as f64;
    let [here, there] = least((part.ready)(&named.board)).map(|time| units * time);
    let (name, ratio) = (&named.name, here / there);
    println!("| {name} | {there:.2} | {here:.2} | {ratio:.3} |");
    ratio
}

fn measure(part: &Part, list: &[Named]) {
    println!(
        "{}: µs of processor time, least of {FEWEST} to {BATCHES} batches\n",
        part.title
    );
    println!("| board | {} | here | ratio |", part.other);
    println!("|---|---|---|---|");
    if part.name != "stream" {
        line(part, &one_cell());
    }
    let ratios: Vec<f64> = list.iter().map(|named| line(part, named)).collect();
    let mean = (ratios.iter().map(|ratio| ratio.ln()).sum::<f64>() / ratios.len() as f64).exp();
    let largest = ratios.iter().copied().fold(0.0, f64::max);
    let slower = ratios.iter().filter(|&&ratio| ratio > 1.0).count();
    println!("\ngeometric mean {mean:.3}, largest {largest:.3}");
    println!("slower than {} on {slower} of {}", part.other, ratios.len());
    println!("(a page of one cell does not count)\n");
}

fn main() {
    if !oracle::SOURCE {
        println!("skipped: no source");
        return;
    }
    let is_part = |word: &String| PARTS.iter().any(|part| part.name == word);
    let (names, words): (Vec<String>, Vec<String>) = std::env::args().skip(1).partition(is_part);
    let wanted = |named: &Named| {
        let has = |word: &String| named.name.contains(word.as_str());
        words.is_empty() || words.iter().any(has)
    };
    for part in &PARTS {
        if names.is_empty() || names.iter().any(|name| name == part.name) {
            let list: Vec<Named> = (part.boards)().into_iter().filter(wanted).collect();
            measure(part, &list);
        }
    }
}
