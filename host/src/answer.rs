//! What a check answers.

use crate::literal::Literal;
use std::fmt;
use std::slice::ChunksExact;

/// What a check answers. A reason lies in the board's memory: `reason.to_vec()` copies it, to keep it over the next
/// call.
#[derive(Clone, Copy, Debug, PartialEq, Eq)]
pub enum Answer<'a> {
    /// Nothing was found. On a board without undecided borders: it is a solution.
    Pass {
        /// How many borders are undecided.
        undecided: usize,
    },
    /// No solution contains these literals, all of which stand on the board.
    Conflict(Reason<'a>),
}

impl<'a> Answer<'a> {
    /// The reason of a conflict.
    pub fn reason(self) -> Option<Reason<'a>> {
        match self {
            Answer::Pass { .. } => None,
            Answer::Conflict(reason) => Some(reason),
        }
    }
}

/// The literals of a conflict, in the order of document 01, which is that of the published Rust; no border is named
/// twice. The empty reason means that the page has no solution at all.
///
/// ```
/// use dbchoco::{Board, Literal, Side};
///
/// // 0 1 0, all open: one block of three cells.
/// let mut board = Board::fresh(1, 3, &[0, 1, 0], &[-1; 3])?;
/// board.decide(0, Side::Open)?;
/// board.decide(1, Side::Open)?;
/// let reason = board.check().reason().expect("a conflict");
/// assert_eq!(reason.len(), 2);
/// assert!(reason.iter().all(|literal| literal.side == Side::Open));
/// assert_eq!(reason.to_string(), "0o 1o");
/// # Ok::<(), dbchoco::Refusal>(())
/// ```
#[derive(Clone, Copy, PartialEq, Eq)]
pub struct Reason<'a> {
    bytes: &'a [u8],
}

impl<'a> Reason<'a> {
    /// The reason of so many literals from the start of the memory.
    pub(crate) fn new(memory: &'a [u8], count: usize) -> Reason<'a> {
        let bytes = &memory[..2 * count];
        Reason { bytes }
    }

    /// How many literals there are.
    pub fn len(self) -> usize {
        self.bytes.len() / 2
    }

    /// Whether there are none.
    pub fn is_empty(self) -> bool {
        self.bytes.is_empty()
    }

    /// The literals, in order.
    pub fn iter(self) -> Literals<'a> {
        Literals(self.bytes.chunks_exact(2))
    }

    /// A copy of the literals, in order.
    pub fn to_vec(self) -> Vec<Literal> {
        self.iter().collect()
    }
}

/// The literals with a space between them.
impl fmt::Display for Reason<'_> {
    fn fmt(&self, to: &mut fmt::Formatter) -> fmt::Result {
        for (i, literal) in self.iter().enumerate() {
            let space = if i == 0 { "" } else { " " };
            write!(to, "{space}{literal}")?;
        }
        Ok(())
    }
}

impl fmt::Debug for Reason<'_> {
    fn fmt(&self, to: &mut fmt::Formatter) -> fmt::Result {
        write!(to, "[{self}]")
    }
}

impl<'a> IntoIterator for Reason<'a> {
    type Item = Literal;
    type IntoIter = Literals<'a>;

    fn into_iter(self) -> Literals<'a> {
        self.iter()
    }
}

/// The literals of a reason, in order.
#[derive(Clone, Debug)]
pub struct Literals<'a>(ChunksExact<'a, u8>);

fn literal(bytes: &[u8]) -> Literal {
    Literal::of_bytes([bytes[0], bytes[1]])
}

impl Iterator for Literals<'_> {
    type Item = Literal;

    fn next(&mut self) -> Option<Literal> {
        self.0.next().map(literal)
    }

    fn size_hint(&self) -> (usize, Option<usize>) {
        self.0.size_hint()
    }
}

impl DoubleEndedIterator for Literals<'_> {
    fn next_back(&mut self) -> Option<Literal> {
        self.0.next_back().map(literal)
    }
}

impl ExactSizeIterator for Literals<'_> {}
