use super::graph::{BoolInnerGridEdges, BoolInnerGridEdgesIrrefutableFacts};
use crate::custom_constraints::PropagatorGenerator;

#[derive(Clone)]
pub struct BoolVarArray2D;

pub struct BoolVar;

impl IntoIterator for BoolVarArray2D {
    type Item = BoolVar;
    type IntoIter = std::vec::IntoIter<BoolVar>;

    fn into_iter(self) -> Self::IntoIter {
        unreachable!()
    }
}

pub struct Solver;

pub struct IrrefutableFacts;

impl Solver {
    pub fn new() -> Solver {
        unreachable!()
    }

    pub fn add_answer_key_bool(&mut self, _: &BoolVarArray2D) {
        unreachable!()
    }

    pub fn add_custom_constraint(&mut self, _: Box<dyn PropagatorGenerator>, _: Vec<BoolVar>) {
        unreachable!()
    }

    pub fn irrefutable_facts(self) -> Option<IrrefutableFacts> {
        unreachable!()
    }
}

impl IrrefutableFacts {
    pub fn get(&self, _: &BoolInnerGridEdges) -> BoolInnerGridEdgesIrrefutableFacts {
        unreachable!()
    }
}
