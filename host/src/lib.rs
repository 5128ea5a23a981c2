//! A Double Choco border checker whose answers are proved.
//!
//! A [`Board`] is a page whose borders are decided one after the other, wall or open. [`Board::check`] answers *pass*,
//! or gives a *reason*: decided borders that cannot stand together in a solution. A full board passes exactly when it
//! is a solution, and no solution contains a reason; both are proved, for every page up to 32×32 and every list of
//! calls.
//!
//! ```
//! use dbchoco::{Answer, Board, Side};
//!
//! // One row of two cells, coloured 0 and 1, without clues (-1 is none).
//! let mut board = Board::fresh(1, 2, &[0, 1], &[-1, -1])?;
//! assert_eq!(board.check(), Answer::Pass { undecided: 1 });
//!
//! // A wall between the two leaves each cell without its other half.
//! board.decide(0, Side::Wall)?;
//! let Answer::Conflict(reason) = board.check() else {
//!     panic!("a wall cannot stand here");
//! };
//! assert_eq!(reason.to_string(), "0w");
//!
//! board.undo()?;
//! board.decide(0, Side::Open)?;
//! assert_eq!(board.check(), Answer::Pass { undecided: 0 });
//! # Ok::<(), dbchoco::Refusal>(())
//! ```
//!
//! [`Constraint`] has the methods of cspuz_core's `SimpleCustomConstraint`, and [`constraint!`] implements that trait.
//! C programs use `dbchoco.h`, which stands beside this crate.

#![deny(missing_docs)]
#![deny(unsafe_code)]

mod answer;
mod board;
mod call;
mod constraint;
#[allow(unsafe_code)]
mod ffi;
mod image;
mod literal;
mod refusal;
mod tally;

pub use answer::{Answer, Literals, Reason};
pub use board::Board;
pub use call::Call;
pub use constraint::Constraint;
pub use image::{IMAGE_LENGTH, SIDE_LIMIT};
pub use literal::{Literal, Side};
pub use refusal::Refusal;
pub use tally::Tally;
