//! The proved functions, called through the static libraries of crates probe and image, and
//! what they are held against.

pub mod boards;
pub mod checks;
pub mod expected;
pub mod images;
pub mod many;
pub mod ours;
pub mod previews;
pub mod tally;
pub mod timing;
