//! Decides and undos as values, for lists of them.

use crate::literal::Literal;

/// A decide or an undo.
#[derive(Clone, Copy, Debug, PartialEq, Eq, Hash)]
pub enum Call {
    /// Decides the literal's border.
    Decide(Literal),
    /// Takes the last decision back.
    Undo,
}

/// The code of an undo; any other is that of a literal.
const UNDO: u16 = 65_535;
/// The code of a border that no page has, for the numbers that have no code.
const NO_BORDER: u16 = 65_534;

impl Call {
    /// The call in two bytes.
    pub(crate) fn code(self) -> u16 {
        match self {
            Call::Undo => UNDO,
            Call::Decide(literal) if literal.border < usize::from(NO_BORDER / 2) => {
                2 * literal.border as u16 + u16::from(literal.side.is_wall())
            }
            Call::Decide(_) => NO_BORDER,
        }
    }
}
