//! A board that owns its image and its reason memory.

use crate::answer::{Answer, Reason};
use crate::call::Call;
use crate::ffi;
use crate::image::{self, Image, Memory, IMAGE_LENGTH};
use crate::literal::{Literal, Side};
use crate::refusal::Refusal;
use crate::tally::Tally;
use std::fmt;

/// The answer of a check that passes is this plus the count of undecided borders.
const PASS: u32 = 32;
/// The answer of a check in conflict is this plus the count of literals.
const CONFLICT: u32 = 65_536;

/// A page with its decided borders, and memory for a reason.
///
/// Cells are named by row and column from the top left, (0, 0). Borders are numbered from 0: first those between a cell
/// and the one at its right, row by row, then those between a cell and the one below it. [`Board::right_of`] and
/// [`Board::below`] give the numbers.
///
/// A board is never alien, since only `fresh` and `from_image` make one; so a decide is refused with
/// [`Refusal::Border`] or [`Refusal::Taken`] alone, an undo with [`Refusal::Bare`] alone, and a check never.
#[derive(Clone)]
pub struct Board {
    image: Box<Image>,
    memory: Box<Memory>,
}

/// A number in 32 bits. A larger one is no side and no border of any page, and neither is the largest of 32 bits.
fn narrow(number: usize) -> u32 {
    u32::try_from(number).unwrap_or(u32::MAX)
}

/// The outcome of making an image, a decide or an undo.
fn outcome(number: u32) -> Result<(), Refusal> {
    match Refusal::from_number(number) {
        None => Ok(()),
        Some(refusal) => Err(refusal),
    }
}

impl Board {
    /// The board with every border undecided. Colours (0 or 1) and clues (-1 is none) stand row by row; a clue is the
    /// number of cells of its colour in its block.
    ///
    /// Refused with [`Refusal::Size`], [`Refusal::Ragged`], [`Refusal::Colour`] or [`Refusal::Clue`].
    ///
    /// ```
    /// use dbchoco::{Board, Refusal};
    ///
    /// let board = Board::fresh(2, 3, &[0, 0, 1, 0, 1, 1], &[-1, 3, -1, -1, -1, -1])?;
    /// assert_eq!(board.borders(), 7);
    /// assert_eq!(Board::fresh(2, 3, &[0; 5], &[-1; 6]), Err(Refusal::Ragged));
    /// assert_eq!(Board::fresh(1, 2, &[0, 2], &[-1; 2]), Err(Refusal::Colour));
    /// assert_eq!(Board::fresh(1, 2, &[0, 1], &[-2; 2]), Err(Refusal::Clue));
    /// # Ok::<(), Refusal>(())
    /// ```
    pub fn fresh(
        height: usize,
        width: usize,
        colours: &[u8],
        clues: &[i32],
    ) -> Result<Board, Refusal> {
        let mut image = image::blank();
        let (height, width) = (narrow(height), narrow(width));
        outcome(ffi::fresh(&mut image, height, width, colours, clues))?;
        let memory = image::memory();
        Ok(Board { image, memory })
    }

    /// The board of a saved image. Refused with [`Refusal::Alien`] if decides and undos cannot make the bytes of a
    /// fresh board, or if there are more or fewer than 11,082.
    ///
    /// ```
    /// use dbchoco::{Board, Refusal, Side};
    ///
    /// let mut board = Board::fresh(1, 2, &[0, 1], &[-1, -1])?;
    /// board.decide(0, Side::Wall)?;
    /// let saved = board.image().to_vec();
    /// assert_eq!(Board::from_image(&saved)?, board);
    /// assert_eq!(Board::from_image(&saved[1..]), Err(Refusal::Alien));
    /// # Ok::<(), Refusal>(())
    /// ```
    pub fn from_image(bytes: &[u8]) -> Result<Board, Refusal> {
        let image: &Image = bytes.try_into().map_err(|_| Refusal::Alien)?;
        if ffi::check_without_memory(image) == Refusal::Alien.number() {
            return Err(Refusal::Alien);
        }
        Ok(Board {
            image: Box::new(*image),
            memory: image::memory(),
        })
    }

    /// The board's image, to be saved.
    pub fn image(&self) -> &[u8; IMAGE_LENGTH] {
        &self.image
    }

    /// Decides a border. Refused with [`Refusal::Border`] if the page has no such border, and with [`Refusal::Taken`]
    /// if it is decided already.
    pub fn decide(&mut self, border: usize, side: Side) -> Result<(), Refusal> {
        let (border, side) = (narrow(border), u32::from(side.is_wall()));
        outcome(ffi::decide(&mut self.image, border, side))
    }

    /// Takes the last decision back. Refused with [`Refusal::Bare`] if there is none.
    pub fn undo(&mut self) -> Result<(), Refusal> {
        outcome(ffi::undo(&mut self.image))
    }

    /// Makes the calls one after the other, up to the first that is refused: then the error is its place in the list
    /// with the refusal, and the calls from there on are not made.
    ///
    /// The board's bytes are tested once for the whole list, so that this is much faster than the calls one by one.
    ///
    /// ```
    /// use dbchoco::{Board, Call, Literal, Refusal, Side};
    ///
    /// let mut board = Board::fresh(1, 3, &[0, 1, 0], &[-1; 3])?;
    /// let wall = |border| Call::Decide(Literal { border, side: Side::Wall });
    /// assert_eq!(board.apply(&[wall(1), Call::Undo, wall(0)]), Ok(()));
    /// assert_eq!(board.apply(&[wall(1), wall(0), Call::Undo]), Err((1, Refusal::Taken)));
    /// assert_eq!(board.decided().len(), 2);
    /// # Ok::<(), Refusal>(())
    /// ```
    pub fn apply(&mut self, calls: &[Call]) -> Result<(), (usize, Refusal)> {
        let codes: Vec<u16> = calls.iter().map(|call| call.code()).collect();
        self.apply_codes(&codes)
            .map_or(Ok(()), |at| match self.single(calls[at]) {
                Err(refusal) => Err((at, refusal)),
                Ok(()) => unreachable!("call {at} was refused, and is done now"),
            })
    }

    /// Makes the calls of the codes; the place of the first that is refused, if one is.
    pub(crate) fn apply_codes(&mut self, codes: &[u16]) -> Option<usize> {
        let done = ffi::calls(&mut self.image, codes);
        (done < codes.len()).then_some(done)
    }

    fn single(&mut self, call: Call) -> Result<(), Refusal> {
        match call {
            Call::Decide(literal) => self.decide(literal.border, literal.side),
            Call::Undo => self.undo(),
        }
    }

    /// Checks the board, which stays as it is. A reason lies in the board's memory until the next call.
    pub fn check(&mut self) -> Answer<'_> {
        let number = ffi::check(&self.image, &mut self.memory);
        match number {
            CONFLICT.. => {
                let count = (number - CONFLICT) as usize;
                Answer::Conflict(Reason::new(&*self.memory, count))
            }
            PASS.. => Answer::Pass {
                undecided: (number - PASS) as usize,
            },
            _ => unreachable!("the image is not alien and the memory not short, but: {number}"),
        }
    }

    /// The page's height.
    pub fn height(&self) -> usize {
        image::height(&self.image)
    }

    /// The page's width.
    pub fn width(&self) -> usize {
        image::width(&self.image)
    }

    /// How many borders the page has.
    pub fn borders(&self) -> usize {
        let (h, w) = (self.height(), self.width());
        h * (w - 1) + (h - 1) * w
    }

    /// How many borders are undecided, wall and open. The image holds the counts and each call keeps them true, so that
    /// nothing is counted here.
    pub fn tally(&self) -> Tally {
        image::tally(&self.image)
    }

    fn cell(&self, y: usize, x: usize) -> Option<usize> {
        (y < self.height() && x < self.width()).then(|| y * self.width() + x)
    }

    /// The colour of a cell, or none off the page.
    pub fn colour(&self, y: usize, x: usize) -> Option<u8> {
        self.cell(y, x).map(|cell| image::colour(&self.image, cell))
    }

    /// The clue of a cell, or none if it has no clue or is off the page.
    pub fn clue(&self, y: usize, x: usize) -> Option<i32> {
        let clue = self.cell(y, x).map(|cell| image::clue(&self.image, cell));
        clue.filter(|&clue| clue != -1)
    }

    /// The border between a cell and the one at its right, or none where there are not two such cells.
    ///
    /// ```
    /// # let board = dbchoco::Board::fresh(2, 3, &[0; 6], &[-1; 6])?;
    /// assert_eq!(board.right_of(1, 1), Some(3));
    /// assert_eq!(board.right_of(1, 2), None);
    /// # Ok::<(), dbchoco::Refusal>(())
    /// ```
    pub fn right_of(&self, y: usize, x: usize) -> Option<usize> {
        let (h, w) = (self.height(), self.width());
        (y < h && x < w - 1).then(|| y * (w - 1) + x)
    }

    /// The border between a cell and the one below it, or none where there are not two such cells.
    ///
    /// ```
    /// # let board = dbchoco::Board::fresh(2, 3, &[0; 6], &[-1; 6])?;
    /// assert_eq!(board.below(0, 2), Some(6));
    /// assert_eq!(board.below(1, 2), None);
    /// # Ok::<(), dbchoco::Refusal>(())
    /// ```
    pub fn below(&self, y: usize, x: usize) -> Option<usize> {
        let (h, w) = (self.height(), self.width());
        (y < h - 1 && x < w).then(|| h * (w - 1) + y * w + x)
    }

    /// The side of a border, or none if it is undecided or not there.
    pub fn side(&self, border: usize) -> Option<Side> {
        if border < self.borders() {
            image::side(&self.image, border)
        } else {
            None
        }
    }

    /// The decided borders with their sides, in the order of deciding.
    ///
    /// ```
    /// use dbchoco::{Board, Side};
    ///
    /// let mut board = Board::fresh(1, 3, &[0, 1, 0], &[-1; 3])?;
    /// board.decide(1, Side::Open)?;
    /// board.decide(0, Side::Wall)?;
    /// let decided: Vec<String> = board.decided().map(|literal| literal.to_string()).collect();
    /// assert_eq!(decided, ["1o", "0w"]);
    /// # Ok::<(), dbchoco::Refusal>(())
    /// ```
    pub fn decided(&self) -> impl DoubleEndedIterator<Item = Literal> + ExactSizeIterator + '_ {
        (0..image::count(&self.image)).map(|turn| image::entry(&self.image, turn))
    }
}

/// Two boards are equal if their images are: the same page, and the same decisions in the same order.
impl PartialEq for Board {
    fn eq(&self, other: &Board) -> bool {
        self.image == other.image
    }
}

impl Eq for Board {}

impl fmt::Debug for Board {
    fn fmt(&self, to: &mut fmt::Formatter) -> fmt::Result {
        let decided: Vec<Literal> = self.decided().collect();
        to.debug_struct("Board")
            .field("height", &self.height())
            .field("width", &self.width())
            .field("decided", &decided)
            .finish_non_exhaustive()
    }
}
