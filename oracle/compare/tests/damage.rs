//! The exported calls on damaged images, images of every length, and memory of every length. What is
//! alien is judged by `oracle::image`, which reads an image and writes it back.

use compare::boards;
use compare::expected::note_source;
use compare::images::{compare_calls, damage, ImageCall, Judge, Lent, DAMAGES, MEMORY, UNDO};
use oracle::image::PARTS;
use oracle::page::{Board, Puzzle};
use oracle::random::Random;
use oracle::{bench, generate, image};

const ALIEN: u32 = 5;

/// Counts of damaged images.
#[derive(Default)]
struct Seen {
    alien: usize,
    good: usize,
}

/// The three calls on a copy of an image each, with memory that is enough or none at all, and a list of two in one.
fn three_calls(random: &mut Random, seen: &mut Seen, bytes: &[u8], memory: &mut Lent) {
    let mut judge = Judge::default();
    let border = random.below(12) as u32;
    let side = random.below(2) as u32;
    let mut numbers = vec![];
    for call in [
        ImageCall::Decide(border, side),
        ImageCall::Undo,
        ImageCall::Check,
    ] {
        let mut image = Lent::new(random, bytes);
        numbers.push(judge.call(&mut image, memory, call));
    }
    let mut image = Lent::new(random, bytes);
    compare_calls(&mut image, &[2 * border as u16 + side as u16, UNDO]);
    let alien = numbers[0] == ALIEN;
    assert!(numbers.iter().all(|&number| (number == ALIEN) == alien));
    if alien {
        seen.alien += 1;
    } else {
        seen.good += 1;
    }
}

/// Boards of several sizes and fillings; the large ones are quick to check.
fn images() -> Vec<Vec<u8>> {
    let mut random = Random::new(80);
    let one = Board {
        puzzle: Puzzle::without_clues(1, 1, vec![1]),
        decided: vec![],
    };
    let mut boards = vec![one, bench::snake(8), bench::stairs(8)];
    boards.push(generate::cut_board(&mut random, 2, 3));
    boards.push(generate::noise(&mut random, 5, 7));
    boards.push(bench::all_open(
        &generate::noise(&mut random, 32, 32).puzzle,
    ));
    boards.iter().map(image::write).collect()
}

#[test]
fn every_byte_changed() {
    note_source();
    let mut random = Random::new(81);
    let mut memory = Lent::memory(&mut random, MEMORY);
    let mut seen = Seen::default();
    for bytes in images() {
        for at in 0..bytes.len() {
            for round in 0..boards::rounds().div_ceil(3) {
                let mut damaged = bytes.clone();
                // The least change first, then any other.
                damaged[at] ^= if round == 0 {
                    1
                } else {
                    random.between(1, 255) as u8
                };
                three_calls(&mut random, &mut seen, &damaged, &mut memory);
            }
        }
    }
    let (alien, good) = (seen.alien, seen.good);
    println!("every byte changed: {alien} alien images, {good} good ones");
    assert!(alien > 50_000 && good > 1000);
}

#[test]
fn every_length_of_an_image() {
    let mut random = Random::new(82);
    let mut seen = Seen::default();
    let mut short = Lent::memory(&mut random, 0);
    let mut enough = Lent::memory(&mut random, MEMORY);
    for bytes in images() {
        for length in 0..=11_100 {
            let mut other = bytes.clone();
            other.resize(length, 0);
            let memory = if length % 2 == 0 {
                &mut short
            } else {
                &mut enough
            };
            three_calls(&mut random, &mut seen, &other, memory);
        }
    }
    assert_eq!((seen.good, seen.alien), (6, 6 * 11_100));
}

// ---- damage by chance ----

#[test]
fn damaged_by_chance() {
    note_source();
    let mut random = Random::new(83);
    let mut memory = Lent::memory(&mut random, MEMORY);
    let mut seen = Seen::default();
    for _ in 0..4_000 * boards::rounds() {
        let board = generate::board(&mut random, 8, 8);
        let mut bytes = image::write(&board);
        for _ in 0..random.between(1, 3) {
            let kind = random.below(DAMAGES);
            damage(&mut random, &mut bytes, kind);
        }
        three_calls(&mut random, &mut seen, &bytes, &mut memory);
    }
    let (alien, good) = (seen.alien, seen.good);
    println!("damaged by chance: {alien} alien images, {good} good ones");
    assert!(alien > 1000 && good > 1000);
}

#[test]
fn random_bytes() {
    let mut random = Random::new(84);
    let mut memory = Lent::memory(&mut random, MEMORY);
    let mut seen = Seen::default();
    for round in 0..1_000 * boards::rounds() {
        // All bytes, or those of one part of a good image.
        let mut bytes = image::write(&generate::board(&mut random, 8, 8));
        let part = round % PARTS.len();
        let (from, to) = if part == 0 {
            (0, image::LENGTH)
        } else {
            (PARTS[part - 1], PARTS[part])
        };
        for byte in &mut bytes[from..to] {
            *byte = random.word() as u8;
        }
        three_calls(&mut random, &mut seen, &bytes, &mut memory);
    }
    println!(
        "random bytes: {} alien images, {} good ones",
        seen.alien, seen.good
    );
    assert!(seen.alien > 1000);
}

// ---- memory ----

/// A board of 1,984 literals in its reason, and one that passes.
#[test]
fn every_length_of_memory() {
    let mut random = Random::new(85);
    let puzzle = generate::noise(&mut random, 32, 32).puzzle;
    let pair = Board {
        puzzle: Puzzle::without_clues(1, 2, vec![0, 1]),
        decided: vec![(0, true)],
    };
    let boards = [
        bench::all_open(&puzzle),
        bench::all_open(&pair.puzzle),
        pair,
    ];
    let ends = boards.map(|board| {
        let mut judge = Judge::default();
        let mut image = Lent::new(&mut random, &image::write(&board));
        let mut last = 0;
        for length in 0..=MEMORY + 100 {
            let mut memory = Lent::memory(&mut random, length);
            last = judge.call(&mut image, &mut memory, ImageCall::Check);
            assert_eq!(last == 9, length < MEMORY, "{length}");
        }
        last
    });
    assert_eq!(ends, [65_536 + 1_984, 32, 65_536 + 1]);
}
