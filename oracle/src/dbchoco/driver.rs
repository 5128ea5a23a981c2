pub use crate::custom_constraints::{PropagatorGenerator, SimpleCustomConstraint};
pub use crate::util::ReasonVerifier;

use super::{enumerate_transforms, BoardManager, Border, DoublechocoConstraint, GroupInfo, Shape};
use crate::page::{struck, Groups, Kind, Literal, Puzzle, Transform};
use crate::util::Grid;

/// A board of the published code.
#[derive(Clone)]
pub struct Published {
    constraint: DoublechocoConstraint,
}

fn rows<T: Clone>(w: usize, flat: &[T]) -> Vec<Vec<T>> {
    flat.chunks(w).map(<[T]>::to_vec).collect()
}

impl Published {
    pub fn new(h: usize, w: usize, colours: &[i32], clues: &[i32]) -> Published {
        assert!(colours.len() == h * w && clues.len() == h * w);
        let colours = rows(w, colours);
        let clues: Vec<Option<usize>> = clues
            .iter()
            .map(|&n| if n == -1 { None } else { Some(n as usize) })
            .collect();
        Published {
            constraint: DoublechocoConstraint {
                board: BoardManager::new(&colours),
                cell_color: Grid::from_vecs(&colours),
                cell_num: Grid::from_vecs(&rows(w, &clues)),
            },
        }
    }

    /// The published constraint itself.
    pub fn constraint(self) -> impl SimpleCustomConstraint + Clone {
        self.constraint
    }

    pub fn decide(&mut self, border: usize, wall: bool) {
        self.constraint.notify(border, wall);
    }

    pub fn undo(&mut self) {
        self.constraint.undo();
    }

    /// The published list of the first hit, repeats included, or none for a pass.
    pub fn find_inconsistency(&mut self) -> Option<Vec<Literal>> {
        self.constraint.find_inconsistency()
    }

    /// The reason of the first hit, or none for a pass: the published list with later repeats struck.
    pub fn check(&mut self) -> Option<Vec<Literal>> {
        self.find_inconsistency().map(struck)
    }

    /// The decided borders with their sides, the last decided last.
    pub fn stack(&self) -> Vec<Literal> {
        let board = &self.constraint.board;
        let side = |border: usize| match board.idx_to_border(border) {
            (true, y, x) => board.vertical_borders[(y, x)] == Border::Wall,
            (false, y, x) => board.horizontal_borders[(y, x)] == Border::Wall,
        };
        board.decision_stack.iter().map(|&b| (b, side(b))).collect()
    }

    pub fn groups(&self, kind: Kind) -> Groups {
        let board = &self.constraint.board;
        let info = self.info(kind);
        let cell = |&(y, x): &(usize, usize)| y * board.width + x;
        let ids = (0..board.height * board.width)
            .map(|i| info.group_id[(i / board.width, i % board.width)])
            .collect();
        let lists = (0..info.num_groups())
            .map(|i| info[i].iter().map(cell).collect())
            .collect();
        Groups { ids, lists }
    }

    fn info(&self, kind: Kind) -> GroupInfo {
        let info = self.constraint.board.compute_board_info();
        match kind {
            Kind::Blocks => info.blocks,
            Kind::Units => info.units,
            Kind::Potential => info.potential_units,
        }
    }

    /// The listed transforms of a unit: none if no unit has this number.
    pub fn transforms(&self, unit: usize) -> Vec<Transform> {
        let units = self.info(Kind::Units);
        if unit >= units.num_groups() {
            return vec![];
        }
        enumerate_transforms(&self.shape(&units, unit))
            .into_iter()
            .map(|shape| (shape.cells, shape.connections))
            .collect()
    }

    /// The shape that `find_inconsistency` makes of a unit.
    fn shape(&self, units: &GroupInfo, unit: usize) -> Shape {
        let (height, width) = (units.group_id.height(), units.group_id.width());
        let mut shape = Shape {
            cells: vec![],
            connections: vec![],
        };
        for &(y, x) in &units[unit] {
            let (a, b) = (y as i32, x as i32);
            shape.cells.push((a, b));
            if y + 1 < height && units.group_id[(y + 1, x)] == unit {
                shape.connections.push((2 * a + 1, 2 * b));
            }
            if x + 1 < width && units.group_id[(y, x + 1)] == unit {
                shape.connections.push((2 * a, 2 * b + 1));
            }
        }
        shape.normalize();
        assert!(shape.is_invariant_met());
        shape
    }

    /// Inside of a block.
    pub fn inside_block(&self, block: usize) -> Vec<Literal> {
        let board = &self.constraint.board;
        board.reason_for_block(&board.compute_board_info(), block)
    }

    /// Inside of a unit.
    pub fn inside_unit(&self, unit: usize) -> Vec<Literal> {
        let board = &self.constraint.board;
        board.reason_for_unit(&board.compute_board_info(), unit)
    }

    /// Inside of each block, Inside of each unit, Edge of each potential unit.
    pub fn group_reasons(&self) -> [Vec<Vec<Literal>>; 3] {
        let board = &self.constraint.board;
        let info = board.compute_board_info();
        let blocks = 0..info.blocks.num_groups();
        let units = 0..info.units.num_groups();
        let potential = 0..info.potential_units.num_groups();
        [
            blocks.map(|i| board.reason_for_block(&info, i)).collect(),
            units.map(|i| board.reason_for_unit(&info, i)).collect(),
            potential
                .map(|i| board.reason_for_potential_unit_boundary(&info, i))
                .collect(),
        ]
    }

    /// How many blocks, units and potential units there are: the groupings alone, to be timed.
    pub fn group_counts(&self) -> [usize; 3] {
        let info = self.constraint.board.compute_board_info();
        [info.blocks, info.units, info.potential_units].map(|groups| groups.num_groups())
    }

    /// Edge of a potential unit.
    pub fn edge(&self, potential: usize) -> Vec<Literal> {
        let board = &self.constraint.board;
        board.reason_for_potential_unit_boundary(&board.compute_board_info(), potential)
    }

    /// Path from cell a to cell b, or none if b is not reached; the published code asserts that it
    /// is.
    pub fn path(&self, a: usize, b: usize) -> Option<Vec<Literal>> {
        let board = &self.constraint.board;
        let blocks = self.groups(Kind::Blocks);
        if blocks.ids[a] != blocks.ids[b] {
            return None;
        }
        let w = board.width;
        Some(board.reason_for_path(a / w, a % w, b / w, b % w))
    }
}

/// The reason on a puzzle with just these literals decided, or none for a pass.
pub fn check(puzzle: &Puzzle, decided: &[Literal]) -> Option<Vec<Literal>> {
    let mut board = Published::new(puzzle.h, puzzle.w, &puzzle.colours, &puzzle.clues);
    for &(border, wall) in decided {
        board.decide(border, wall);
    }
    board.check()
}
