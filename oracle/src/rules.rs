//! Document 01's section "Rules" by brute force, written from its sentences alone.

use crate::page::{Place, Puzzle};
use std::collections::BTreeSet;

/// Whether a full setting (`walls[b]`: border b is wall) is a solution.
pub fn is_solution(puzzle: &Puzzle, walls: &[bool]) -> bool {
    assert_eq!(walls.len(), puzzle.borders());
    let blocks = flood(puzzle, walls, |_, _| true);
    let units = flood(puzzle, walls, |a, b| puzzle.colours[a] == puzzle.colours[b]);
    no_wall_inside(puzzle, walls, &blocks)
        && blocks_are_pairs(puzzle, &blocks, &units)
        && clues_are_met(puzzle, &units)
}

/// For each cell the first cell that it is joined to by open borders that `joins` lets through.
fn flood(puzzle: &Puzzle, walls: &[bool], joins: impl Fn(usize, usize) -> bool) -> Vec<usize> {
    let mut first: Vec<Option<usize>> = vec![None; puzzle.cells()];
    for start in 0..puzzle.cells() {
        if first[start].is_some() {
            continue;
        }
        first[start] = Some(start);
        let mut waiting = vec![start];
        while let Some(cell) = waiting.pop() {
            for (border, other) in puzzle.around(cell) {
                if !walls[border] && joins(cell, other) && first[other].is_none() {
                    first[other] = Some(start);
                    waiting.push(other);
                }
            }
        }
    }
    first.into_iter().flatten().collect()
}

/// No wall between two cells of one block.
fn no_wall_inside(puzzle: &Puzzle, walls: &[bool], blocks: &[usize]) -> bool {
    (0..puzzle.borders()).all(|border| {
        let (a, b) = puzzle.ends(border);
        !(walls[border] && blocks[a] == blocks[b])
    })
}

/// Each block has exactly one unit of each colour, and these two are congruent.
fn blocks_are_pairs(puzzle: &Puzzle, blocks: &[usize], units: &[usize]) -> bool {
    let names: BTreeSet<usize> = blocks.iter().copied().collect();
    names.into_iter().all(|block| {
        let of_colour = |colour: i32| -> BTreeSet<usize> {
            (0..puzzle.cells())
                .filter(|&cell| blocks[cell] == block && puzzle.colours[cell] == colour)
                .map(|cell| units[cell])
                .collect()
        };
        let (zero, one) = (of_colour(0), of_colour(1));
        zero.len() == 1
            && one.len() == 1
            && congruent(
                &places(puzzle, units, *zero.first().unwrap()),
                &places(puzzle, units, *one.first().unwrap()),
            )
    })
}

/// The places (y, x) of a unit's cells.
fn places(puzzle: &Puzzle, units: &[usize], unit: usize) -> Vec<Place> {
    (0..puzzle.cells())
        .filter(|&cell| units[cell] == unit)
        .map(|cell| ((cell / puzzle.w) as i32, (cell % puzzle.w) as i32))
        .collect()
}

/// Whether a shift, quarter turns and a reflection take the one set of places to the other.
pub fn congruent(one: &[Place], other: &[Place]) -> bool {
    let target = shifted(other);
    let mut turned = one.to_vec();
    for _ in 0..4 {
        turned = turned.iter().map(|&(y, x)| (x, -y)).collect();
        let mirrored: Vec<Place> = turned.iter().map(|&(y, x)| (y, -x)).collect();
        if shifted(&turned) == target || shifted(&mirrored) == target {
            return true;
        }
    }
    false
}

/// The places sorted and shifted so that the least y and the least x are 0.
fn shifted(places: &[Place]) -> Vec<Place> {
    let top = places.iter().map(|p| p.0).min().unwrap();
    let left = places.iter().map(|p| p.1).min().unwrap();
    let mut moved: Vec<Place> = places.iter().map(|&(y, x)| (y - top, x - left)).collect();
    moved.sort();
    moved
}

/// Each clue equals the size of its cell's unit.
fn clues_are_met(puzzle: &Puzzle, units: &[usize]) -> bool {
    (0..puzzle.cells()).all(|cell| {
        let size = units.iter().filter(|&&unit| unit == units[cell]).count();
        puzzle.clues[cell] == -1 || puzzle.clues[cell] == size as i32
    })
}

/// All solutions of a puzzle, each as its walls, by trying every full setting.
pub fn all_solutions(puzzle: &Puzzle) -> Vec<Vec<bool>> {
    let borders = puzzle.borders();
    assert!(borders <= 17, "too many settings to try");
    (0..1usize << borders)
        .map(|bits| (0..borders).map(|b| bits >> b & 1 == 1).collect())
        .filter(|walls: &Vec<bool>| is_solution(puzzle, walls))
        .collect()
}
