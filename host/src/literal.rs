//! Sides and literals.

use std::fmt;

/// What a decided border is.
#[derive(Clone, Copy, Debug, PartialEq, Eq, PartialOrd, Ord, Hash)]
pub enum Side {
    /// The two cells are parted.
    Wall,
    /// The two cells are joined.
    Open,
}

impl Side {
    /// Whether this is wall, as the published Rust keeps it.
    pub fn is_wall(self) -> bool {
        self == Side::Wall
    }
}

/// `true` is wall, as in the published Rust.
impl From<bool> for Side {
    fn from(wall: bool) -> Side {
        if wall {
            Side::Wall
        } else {
            Side::Open
        }
    }
}

/// A border number with its side.
///
/// ```
/// use dbchoco::{Literal, Side};
///
/// let literal = Literal { border: 12, side: Side::Wall };
/// assert_eq!(literal.to_string(), "12w");
/// assert_eq!(literal.opposite().to_string(), "12o");
/// ```
#[derive(Clone, Copy, Debug, PartialEq, Eq, PartialOrd, Ord, Hash)]
pub struct Literal {
    /// The border's number.
    pub border: usize,
    /// Its side.
    pub side: Side,
}

impl Literal {
    /// The same border with the other side.
    pub fn opposite(self) -> Literal {
        Literal {
            side: Side::from(!self.side.is_wall()),
            ..self
        }
    }

    /// The literal of two bytes of reason memory, low byte first: twice the border, plus 1 for wall.
    pub(crate) fn of_bytes(bytes: [u8; 2]) -> Literal {
        let code = usize::from(u16::from_le_bytes(bytes));
        Literal {
            border: code / 2,
            side: Side::from(code % 2 == 1),
        }
    }
}

/// The number, then `w` or `o`.
impl fmt::Display for Literal {
    fn fmt(&self, to: &mut fmt::Formatter) -> fmt::Result {
        let letter = if self.side.is_wall() { 'w' } else { 'o' };
        write!(to, "{}{letter}", self.border)
    }
}

/// As the published Rust keeps a literal: `true` is wall.
impl From<Literal> for (usize, bool) {
    fn from(literal: Literal) -> (usize, bool) {
        (literal.border, literal.side.is_wall())
    }
}
