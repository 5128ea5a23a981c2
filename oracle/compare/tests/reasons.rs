//! Inside, Edge and Path of the proved code against the published ones: literals in order, and the
//! memory beyond.

use compare::boards;
use compare::expected::{self, codes, Paths};
use compare::ours::{Memory, Ours, ROOM};
use oracle::page::{Board, Kind, Literal};
use oracle::random::Random;

/// The proved code's reason of a group, of each list that `expected::reasons` gives.
type Call = fn(&Ours, usize, &mut [u16]) -> usize;

const CALLS: [(&str, Call); 3] = [
    ("inside of block", |ours, group, places| {
        ours.inside(Kind::Blocks, group, places)
    }),
    ("inside of unit", |ours, group, places| {
        ours.inside(Kind::Units, group, places)
    }),
    ("edge of potential unit", |ours, group, places| {
        ours.edge(group, places)
    }),
];

#[test]
fn group_reasons_are_the_published_ones() {
    expected::note_source();
    let mut memory = Memory::new(&mut Random::new(51), ROOM + 5);
    let (mut reasons, mut literals) = ([0; 3], [0; 3]);
    let count = boards::each(52, |_, board| {
        let ours = Ours::new(board);
        for (i, theirs) in expected::reasons(board).iter().enumerate() {
            let (name, call) = CALLS[i];
            let mut judge = |group: usize, wanted: &[Literal]| {
                let written = memory.lend(|places| call(&ours, group, places));
                assert!(written == Some(codes(wanted)), "{name} {group} {board:?}");
            };
            for (group, wanted) in theirs.iter().enumerate() {
                judge(group, wanted);
                literals[i] += wanted.len();
            }
            // A number that no group has.
            judge(theirs.len(), &[]);
            judge(usize::MAX, &[]);
            reasons[i] += theirs.len();
        }
    });
    for (i, (name, _)) in CALLS.iter().enumerate() {
        println!(
            "{count} boards, {name}: {} with {} literals",
            reasons[i], literals[i]
        );
        assert!(reasons[i] > 10_000 && literals[i] > 10_000, "{name}");
    }
}

#[derive(Default)]
struct Seen {
    reached: usize,
    not_reached: usize,
    same: usize,
    off: usize,
    longest: usize,
}

/// Two cells of a board: of one block, or any two.
fn pair(random: &mut Random, paths: &Paths, cells: usize) -> (usize, usize) {
    let a = random.below(cells);
    if random.chance(70) {
        let blocks = paths.blocks();
        (a, *random.pick(&blocks.lists[blocks.ids[a]]))
    } else {
        (a, random.below(cells))
    }
}

fn compare_paths(random: &mut Random, board: &Board, memory: &mut Memory, seen: &mut Seen) {
    let ours = Ours::new(board);
    let paths = Paths::new(board);
    let cells = board.puzzle.cells();
    for _ in 0..12 {
        let (a, b) = pair(random, &paths, cells);
        let wanted = paths.path(a, b);
        let written = memory.lend(|places| ours.path(a, b, places));
        assert!(written == Some(codes(&wanted)), "{a} {b} {board:?}");
        match (a == b, wanted.is_empty()) {
            (true, _) => seen.same += 1,
            (_, true) => seen.not_reached += 1,
            _ => seen.reached += 1,
        }
        seen.longest = seen.longest.max(wanted.len());
    }
    let off = *random.pick(&[cells, cells + 1, 1024, usize::MAX]);
    for (a, b) in [(0, off), (off, 0), (off, off)] {
        let written = memory.lend(|places| ours.path(a, b, places));
        assert!(written == Some(vec![]), "{a} {b} {board:?}");
        seen.off += 1;
    }
}

#[test]
fn paths_are_the_published_ones() {
    expected::note_source();
    let mut memory = Memory::new(&mut Random::new(53), ROOM);
    let mut seen = Seen::default();
    let count = boards::each(54, |random, board| {
        compare_paths(random, board, &mut memory, &mut seen);
    });
    println!(
        "{count} boards, paths: {} reached, {} not, {} to the same cell, {} off the page; longest {}",
        seen.reached, seen.not_reached, seen.same, seen.off, seen.longest
    );
    assert!(seen.reached > 3000 && seen.not_reached > 1000, "too few");
    assert!(seen.same > 300 && seen.longest > 200, "{}", seen.longest);
}
