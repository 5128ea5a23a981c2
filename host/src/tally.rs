//! The tally of a board.

/// How many borders of a board are undecided, wall and open. Together they are all its borders.
///
/// ```
/// use dbchoco::{Board, Side, Tally};
///
/// let mut board = Board::fresh(1, 3, &[0, 1, 0], &[-1; 3])?;
/// board.decide(1, Side::Wall)?;
/// assert_eq!(board.tally(), Tally { undecided: 1, walls: 1, opens: 0 });
/// # Ok::<(), dbchoco::Refusal>(())
/// ```
#[derive(Clone, Copy, Debug, PartialEq, Eq, Hash)]
pub struct Tally {
    /// How many borders are undecided.
    pub undecided: usize,
    /// How many are wall.
    pub walls: usize,
    /// How many are open.
    pub opens: usize,
}
