//! What stands for the published check where its source is not there: nothing here may be called.

use crate::page::{Groups, Kind, Literal, Puzzle, Transform};

const ABSENT: &str = "built without the published source";

/// The shape of the published trait.
pub trait SimpleCustomConstraint {
    fn initialize_sat(&mut self, num_inputs: usize);
    fn notify(&mut self, index: usize, value: bool);
    fn find_inconsistency(&mut self) -> Option<Vec<(usize, bool)>>;
    fn undo(&mut self);

    fn lazy_propagation(&self) -> bool {
        false
    }
}

pub trait PropagatorGenerator {}

impl<T: SimpleCustomConstraint> PropagatorGenerator for T {}

pub struct ReasonVerifier<T>(T);

impl<T: SimpleCustomConstraint> ReasonVerifier<T> {
    pub fn new(_: T, _: T) -> ReasonVerifier<T> {
        panic!("{ABSENT}")
    }
}

impl<T: SimpleCustomConstraint> SimpleCustomConstraint for ReasonVerifier<T> {
    fn initialize_sat(&mut self, _: usize) {}

    fn notify(&mut self, _: usize, _: bool) {}

    fn find_inconsistency(&mut self) -> Option<Vec<(usize, bool)>> {
        self.0.find_inconsistency()
    }

    fn undo(&mut self) {}
}

#[derive(Clone)]
struct Absent;

impl SimpleCustomConstraint for Absent {
    fn initialize_sat(&mut self, _: usize) {}

    fn notify(&mut self, _: usize, _: bool) {}

    fn find_inconsistency(&mut self) -> Option<Vec<(usize, bool)>> {
        panic!("{ABSENT}")
    }

    fn undo(&mut self) {}
}

/// A board of the published code.
#[derive(Clone)]
pub struct Published;

impl Published {
    pub fn new(_: usize, _: usize, _: &[i32], _: &[i32]) -> Published {
        panic!("{ABSENT}")
    }

    pub fn constraint(self) -> impl SimpleCustomConstraint + Clone {
        Absent
    }

    pub fn decide(&mut self, _: usize, _: bool) {
        panic!("{ABSENT}")
    }

    pub fn undo(&mut self) {
        panic!("{ABSENT}")
    }

    pub fn find_inconsistency(&mut self) -> Option<Vec<Literal>> {
        panic!("{ABSENT}")
    }

    pub fn check(&mut self) -> Option<Vec<Literal>> {
        panic!("{ABSENT}")
    }

    pub fn stack(&self) -> Vec<Literal> {
        panic!("{ABSENT}")
    }

    pub fn groups(&self, _: Kind) -> Groups {
        panic!("{ABSENT}")
    }

    pub fn transforms(&self, _: usize) -> Vec<Transform> {
        panic!("{ABSENT}")
    }

    pub fn inside_block(&self, _: usize) -> Vec<Literal> {
        panic!("{ABSENT}")
    }

    pub fn inside_unit(&self, _: usize) -> Vec<Literal> {
        panic!("{ABSENT}")
    }

    pub fn group_reasons(&self) -> [Vec<Vec<Literal>>; 3] {
        panic!("{ABSENT}")
    }

    pub fn group_counts(&self) -> [usize; 3] {
        panic!("{ABSENT}")
    }

    pub fn edge(&self, _: usize) -> Vec<Literal> {
        panic!("{ABSENT}")
    }

    pub fn path(&self, _: usize, _: usize) -> Option<Vec<Literal>> {
        panic!("{ABSENT}")
    }
}

pub fn check(_: &Puzzle, _: &[Literal]) -> Option<Vec<Literal>> {
    panic!("{ABSENT}")
}
