//! Stand-ins for what only the untaken parts of the published files use.
//! They have the types that the compiler asks for; no body is ever run.

pub mod graph;
pub mod sat;
pub mod serializer;
pub mod solver;
