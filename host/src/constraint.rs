//! The drop-in for cspuz_core's `SimpleCustomConstraint`.

use crate::board::Board;
use crate::call::Call;
use crate::literal::{Literal, Side};
use crate::refusal::Refusal;

/// A board with the methods and signatures of cspuz_core's `SimpleCustomConstraint`.
///
/// The inputs of the constraint are the page's borders, by number; `true` is wall. [`constraint!`](crate::constraint!)
/// implements the trait itself.
///
/// As in the published Rust, a call that does not fit panics: an input that is not there or decided already, an undo
/// with nothing decided, a count of inputs that is not the count of borders.
///
/// A solver makes many decides and undos for each check. They are kept until the next check and then made in one go,
/// so that the board's bytes are tested twice for a check and not once for each call.
#[derive(Clone, Debug)]
pub struct Constraint {
    board: Board,
    /// The codes of the calls since the last check, which are not made on the board yet.
    kept: Vec<u16>,
    /// The borders that are decided, the last last, kept calls included; and which they are.
    stack: Vec<usize>,
    decided: Vec<bool>,
}

/// All rows as one list; none if they are not h rows of w.
fn flat<T: Copy>(rows: &[Vec<T>], h: usize, w: usize) -> Option<Vec<T>> {
    let even = rows.len() == h && rows.iter().all(|row| row.len() == w);
    even.then(|| rows.concat())
}

impl Constraint {
    /// The constraint of a page, from what `solve_doublechoco` takes: colours and clues in rows; `None` and `Some(-1)`
    /// are no clue.
    ///
    /// Refused as [`Board::fresh`] is.
    pub fn new(color: &[Vec<i32>], num: &[Vec<Option<i32>>]) -> Result<Constraint, Refusal> {
        let (h, w) = (color.len(), color.first().map_or(0, Vec::len));
        // Uneven rows become empty lists, which `fresh` refuses as ragged unless the size comes first.
        let colours: Vec<u8> = flat(color, h, w)
            .unwrap_or_default()
            .into_iter()
            .map(|colour| u8::try_from(colour).unwrap_or(u8::MAX))
            .collect();
        let clues: Vec<i32> = flat(num, h, w)
            .unwrap_or_default()
            .into_iter()
            .map(|clue| clue.unwrap_or(-1))
            .collect();
        let board = Board::fresh(h, w, &colours, &clues)?;
        let decided = vec![false; board.borders()];
        Ok(Constraint {
            board,
            kept: vec![],
            stack: vec![],
            decided,
        })
    }

    /// Makes the calls that are kept.
    fn settle(&mut self) {
        if let Some(at) = self.board.apply_codes(&self.kept) {
            unreachable!("call {at} of those kept is refused");
        }
        self.kept.clear();
    }

    /// The board behind the constraint.
    pub fn board(&mut self) -> &Board {
        self.settle();
        &self.board
    }

    /// Panics if there are not as many inputs as borders.
    pub fn initialize_sat(&mut self, num_inputs: usize) {
        assert_eq!(
            num_inputs,
            self.board.borders(),
            "the inputs are the page's borders"
        );
    }

    /// Decides a border; `true` is wall.
    pub fn notify(&mut self, index: usize, value: bool) {
        let refusal = match self.decided.get(index) {
            Some(false) => {
                let side = Side::from(value);
                let literal = Literal {
                    border: index,
                    side,
                };
                self.kept.push(Call::Decide(literal).code());
                self.stack.push(index);
                self.decided[index] = true;
                return;
            }
            Some(true) => Refusal::Taken,
            None => Refusal::Border,
        };
        panic!("border {index}: {refusal}");
    }

    /// The reason of a conflict, in the published order and each literal once, or none for a pass.
    pub fn find_inconsistency(&mut self) -> Option<Vec<(usize, bool)>> {
        self.settle();
        let reason = self.board.check().reason()?;
        Some(reason.into_iter().map(Into::into).collect())
    }

    /// Takes the last decision back.
    pub fn undo(&mut self) {
        let Some(border) = self.stack.pop() else {
            panic!("undo: {}", Refusal::Bare);
        };
        self.decided[border] = false;
        self.kept.push(Call::Undo.code());
    }

    /// `true`, as the published constraint has it: a check may wait until all pending inputs are notified.
    pub fn lazy_propagation(&self) -> bool {
        true
    }
}

/// The constraint of a page as a type that implements the published trait, which the caller names:
/// `constraint!(trait, color, num)`, with the arguments of [`Constraint::new`]. It gives a [`Result`].
///
/// In `solve_doublechoco`, the statement `let constraint = DoublechocoConstraint { .. };` becomes
///
/// ```text
/// let constraint = dbchoco::constraint!(SimpleCustomConstraint, color, num).expect("a Double Choco page");
/// ```
///
/// and all else stays. The type is the caller's own, as Rust demands where neither the trait nor
/// [`Constraint`] is; it is `Clone`.
///
/// ```
/// // The published trait, which a solver takes from `cspuz_core::custom_constraints`.
/// trait SimpleCustomConstraint {
///     fn initialize_sat(&mut self, num_inputs: usize);
///     fn notify(&mut self, index: usize, value: bool);
///     fn find_inconsistency(&mut self) -> Option<Vec<(usize, bool)>>;
///     fn undo(&mut self);
///
///     fn lazy_propagation(&self) -> bool {
///         false
///     }
/// }
///
/// let (color, num) = (vec![vec![0, 1]], vec![vec![None, Some(-1)]]);
/// let mut constraint = dbchoco::constraint!(SimpleCustomConstraint, &color, &num)?;
/// constraint.initialize_sat(1);
/// constraint.notify(0, true);
/// assert_eq!(constraint.find_inconsistency(), Some(vec![(0, true)]));
/// constraint.undo();
/// assert_eq!(constraint.find_inconsistency(), None);
/// assert!(constraint.lazy_propagation());
/// # Ok::<(), dbchoco::Refusal>(())
/// ```
#[macro_export]
macro_rules! constraint {
    ($published:path, $color:expr, $num:expr) => {{
        #[derive(Clone)]
        struct Forwarded($crate::Constraint);

        impl $published for Forwarded {
            fn initialize_sat(&mut self, num_inputs: usize) {
                self.0.initialize_sat(num_inputs)
            }

            fn notify(&mut self, index: usize, value: bool) {
                self.0.notify(index, value)
            }

            fn find_inconsistency(&mut self) -> Option<Vec<(usize, bool)>> {
                self.0.find_inconsistency()
            }

            fn undo(&mut self) {
                self.0.undo()
            }

            fn lazy_propagation(&self) -> bool {
                self.0.lazy_propagation()
            }
        }

        $crate::Constraint::new($color, $num).map(Forwarded)
    }};
}
