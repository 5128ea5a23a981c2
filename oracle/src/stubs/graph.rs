use super::solver::{BoolVarArray2D, Solver};

pub struct BoolInnerGridEdges {
    pub horizontal: BoolVarArray2D,
    pub vertical: BoolVarArray2D,
}

pub struct BoolInnerGridEdgesIrrefutableFacts;

impl BoolInnerGridEdges {
    pub fn new(_: &mut Solver, _: (usize, usize)) -> BoolInnerGridEdges {
        unreachable!()
    }
}
