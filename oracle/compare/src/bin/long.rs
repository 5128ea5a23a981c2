//! The long comparison of the proved check with the published one, on generated boards up to 32x32:
//! `cargo run --release --bin long -- 100000 1`, the count of boards and the seed.

use compare::expected;
use compare::many::Judge;

/// Boards between two lines of output.
const PART: usize = 10_000;

fn number(word: Option<String>, otherwise: usize) -> usize {
    word.map_or(otherwise, |word| word.parse().expect("a number"))
}

fn main() {
    expected::note_source();
    let mut words = std::env::args().skip(1);
    let count = number(words.next(), 100_000);
    let seed = number(words.next(), 1) as u64;
    let mut judge = Judge::new(seed);
    let mut part = 0;
    while judge.seen.boards < count {
        let boards = PART.min(count - judge.seen.boards);
        // Each part has a seed of its own.
        judge.generated(seed.wrapping_mul(1_000_003).wrapping_add(part), boards);
        part += 1;
        println!("seed {seed}, all equal so far: {:?}", judge.seen);
    }
}
