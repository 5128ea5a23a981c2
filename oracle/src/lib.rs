//! The published Double Choco checker, compiled unchanged, and what is compared with it.

#[cfg(source)]
extern crate self as cspuz_core;
#[cfg(source)]
extern crate self as cspuz_rs;

// The published files name these as `crate::..`, `cspuz_core::..` and `cspuz_rs::..`.
#[cfg(source)]
mod backend {
    pub mod glucose {
        pub use crate::stubs::sat::GlucoseSolverManipulator;
    }
}
#[cfg(source)]
#[allow(dead_code, clippy::all)]
mod custom_constraints {
    include!(concat!(
        env!("ORACLE_SOURCE"),
        "/cspuz_core/src/custom_constraints.rs"
    ));
}
#[cfg(source)]
mod stubs;
#[cfg(source)]
use stubs::{graph, sat, serializer, solver};
#[cfg(source)]
#[allow(dead_code, clippy::all)]
mod util {
    include!(concat!(
        env!("ORACLE_SOURCE"),
        "/cspuz_rs_puzzles/src/util.rs"
    ));
}

#[cfg(source)]
#[allow(dead_code, clippy::all)]
mod dbchoco;
/// The published check and its parts.
#[cfg(source)]
pub mod published {
    pub use crate::dbchoco::driver::{check, Published};
    pub use crate::dbchoco::driver::{PropagatorGenerator, ReasonVerifier, SimpleCustomConstraint};
}
#[cfg(not(source))]
#[path = "absent.rs"]
pub mod published;

pub mod bench;
pub mod blocked;
pub mod book;
pub mod branch;
pub mod cuts;
pub mod drafts;
pub mod generate;
pub mod image;
pub mod json;
pub mod page;
pub mod pieces;
pub mod plain;
pub mod random;
pub mod records;
pub mod rules;
pub mod scenarios;
pub mod shapes;
pub mod sheet;
pub mod vectors;
pub mod vectors02;

/// Whether the published source was there when this was built.
pub const SOURCE: bool = cfg!(source);

/// The reason of the published check, later repeats struck, or of the plain one where the source is
/// not there; none for a pass.
pub fn check(puzzle: &page::Puzzle, decided: &[page::Literal]) -> Option<Vec<page::Literal>> {
    if SOURCE {
        return published::check(puzzle, decided);
    }
    plain::reason(puzzle, decided)
}
