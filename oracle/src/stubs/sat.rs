// The two traits are `unsafe` because the published files implement and call them so.
#![allow(dead_code, clippy::missing_safety_doc)]

use std::ops::Not;

#[derive(Clone, Copy, Debug, PartialEq, Eq, PartialOrd, Ord)]
pub struct Lit(i32);

impl Not for Lit {
    type Output = Lit;

    fn not(self) -> Lit {
        unreachable!()
    }
}

pub unsafe trait SolverManipulator {
    unsafe fn value(&self, lit: Lit) -> Option<bool>;
    unsafe fn add_watch(&mut self, lit: Lit);
    unsafe fn is_current_level(&self, lit: Lit) -> bool;
}

pub unsafe trait CustomPropagator<T: SolverManipulator> {
    fn initialize(&mut self, solver: &mut T) -> bool;
    fn propagate(&mut self, solver: &mut T, p: Lit, num_pending_propagations: i32) -> bool;
    fn calc_reason(&mut self, solver: &mut T, p: Option<Lit>, extra: Option<Lit>) -> Vec<Lit>;
    fn undo(&mut self, solver: &mut T, p: Lit);
}

pub struct GlucoseSolverManipulator;

unsafe impl SolverManipulator for GlucoseSolverManipulator {
    unsafe fn value(&self, _: Lit) -> Option<bool> {
        unreachable!()
    }

    unsafe fn add_watch(&mut self, _: Lit) {
        unreachable!()
    }

    unsafe fn is_current_level(&self, _: Lit) -> bool {
        unreachable!()
    }
}
