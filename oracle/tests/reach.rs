//! The generator reaches every branch of the check and every list of transforms, so that the tests
//! over its boards are not hollow.

mod common;

use common::{published, skipped};
use oracle::page::{Board, Kind, Transform};
use oracle::plain::{self, Branch, BRANCHES};
use oracle::random::Random;
use oracle::{bench, generate, pieces, shapes};
use std::collections::BTreeMap;

fn boards() -> Vec<Board> {
    let mut random = Random::new(31);
    (0..20_000)
        .map(|_| generate::board(&mut random, 8, 8))
        .collect()
}

#[test]
fn every_branch() {
    let mut counts: BTreeMap<Option<Branch>, usize> = BTreeMap::new();
    let (mut dropped, mut others, mut repeats) = (0, 0, 0);
    for board in boards() {
        let hit = plain::check(&board);
        *counts
            .entry(hit.as_ref().map(|hit| hit.branch))
            .or_default() += 1;
        let Some(hit) = hit else {
            continue;
        };
        if let Some(failed) = hit.failed {
            dropped += usize::from(failed.dropped > 0);
            others += usize::from(failed.others > 0);
        }
        repeats += usize::from(hit.repeats());
    }
    for branch in BRANCHES.map(Some).into_iter().chain([None]) {
        let count = counts.get(&branch).copied().unwrap_or(0);
        assert!(count >= 10, "{branch:?}: {counts:?}");
    }
    assert!(dropped >= 10 && others >= 10 && repeats >= 10);
}

/// The number in `LISTS` of the list of rows that these transforms were made by.
fn list_of(transforms: &[Transform]) -> usize {
    let images = |list: &&[usize]| -> Vec<Transform> {
        let image = |&row: &usize| shapes::image(row, &transforms[0]);
        list.iter().map(image).collect()
    };
    let made_by = |list: &&[usize]| images(list) == transforms;
    let found = shapes::LISTS.iter().position(made_by);
    found.expect("one of the six lists")
}

#[test]
fn every_list_of_transforms() {
    if skipped() {
        return;
    }
    let mut counts = [0; 6];
    for board in boards().into_iter().take(6000) {
        let made = published(&board);
        for unit in 0..made.groups(Kind::Units).lists.len() {
            counts[list_of(&made.transforms(unit))] += 1;
        }
    }
    assert!(counts.iter().all(|&count| count >= 10), "{counts:?}");
}

#[test]
fn pieces_have_their_lists() {
    for (piece, list) in pieces::CLASSES.iter().zip(shapes::LISTS) {
        let puzzle = oracle::page::Puzzle::without_clues(4, 4, vec![0; 16]);
        let mut cells = pieces::laid(&puzzle, &[true; 16], piece, (0, 0)).unwrap();
        cells.sort();
        assert_eq!(shapes::listed_rows(&shapes::shape(&puzzle, &cells)), list);
    }
}

#[test]
fn bench_boards_are_what_they_are_called() {
    let list = bench::boards();
    assert_eq!(list.len(), 45);
    for named in &list {
        let branch = plain::check(&named.board).map(|hit| hit.branch);
        let right = match named.name.split_once(' ').unwrap().1 {
            "conflict1" | "long" => branch.is_some_and(|b| b < Branch::WallBelow),
            "conflict2" => branch == Some(Branch::WallRight),
            "snake" => branch == Some(Branch::WallBelow),
            "conflict3" | "stairs" | "bigfail" => branch == Some(Branch::Blocked),
            _ => branch.is_none(),
        };
        assert!(right, "{} {branch:?}", named.name);
    }
}

#[test]
fn the_same_seed_gives_the_same_boards() {
    assert_eq!(boards()[..200], boards()[..200]);
}
