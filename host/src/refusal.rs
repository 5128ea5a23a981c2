//! The numbered refusals of document 01.

use std::error::Error;
use std::fmt;

/// Why a call was refused. A refused call leaves everything as it was.
///
/// Where several apply, the one with the lowest number is given.
///
/// ```
/// use dbchoco::{Board, Refusal};
///
/// let refusal = Board::fresh(33, 1, &[], &[]).unwrap_err();
/// assert_eq!(refusal, Refusal::Size);
/// assert_eq!((refusal.number(), refusal.word()), (1, "size"));
/// assert_eq!(refusal.to_string(), "height and width must be 1 to 32");
/// ```
#[derive(Clone, Copy, Debug, PartialEq, Eq, PartialOrd, Ord, Hash)]
#[repr(u32)]
pub enum Refusal {
    /// The height or the width is not from 1 to 32.
    Size = 1,
    /// There are not as many colours, or clues, as cells.
    Ragged = 2,
    /// A colour is neither 0 nor 1.
    Colour = 3,
    /// A clue is below -1.
    Clue = 4,
    /// No fresh board becomes this image by decides and undos, or the image has another length.
    Alien = 5,
    /// The page has no border of this number.
    Border = 6,
    /// The border is decided already.
    Taken = 7,
    /// There is no decision to undo.
    Bare = 8,
    /// The reason memory is below 3,968 bytes. A [`Board`](crate::Board) has its own and never gives this.
    Short = 9,
}

impl Refusal {
    /// Every refusal, by number.
    pub const ALL: [Refusal; 9] = [
        Refusal::Size,
        Refusal::Ragged,
        Refusal::Colour,
        Refusal::Clue,
        Refusal::Alien,
        Refusal::Border,
        Refusal::Taken,
        Refusal::Bare,
        Refusal::Short,
    ];

    /// The refusal's number, from 1 to 9.
    pub fn number(self) -> u32 {
        self as u32
    }

    /// The refusal of a number, or none if no refusal has it.
    pub fn from_number(number: u32) -> Option<Refusal> {
        Refusal::ALL
            .into_iter()
            .find(|refusal| refusal.number() == number)
    }

    /// The refusal's word.
    pub fn word(self) -> &'static str {
        match self {
            Refusal::Size => "size",
            Refusal::Ragged => "ragged",
            Refusal::Colour => "colour",
            Refusal::Clue => "clue",
            Refusal::Alien => "alien",
            Refusal::Border => "border",
            Refusal::Taken => "taken",
            Refusal::Bare => "bare",
            Refusal::Short => "short",
        }
    }
}

impl fmt::Display for Refusal {
    fn fmt(&self, to: &mut fmt::Formatter) -> fmt::Result {
        to.write_str(match self {
            Refusal::Size => "height and width must be 1 to 32",
            Refusal::Ragged => "there must be one colour and one clue for each cell, row by row",
            Refusal::Colour => "a colour must be 0 or 1",
            Refusal::Clue => "a clue must be -1 (no clue) or more",
            Refusal::Alien => {
                "the image is not 11,082 bytes that decides and undos make of a fresh board"
            }
            Refusal::Border => "the page has no border of this number",
            Refusal::Taken => "the border is decided already; undo it first",
            Refusal::Bare => "there is no decision to undo",
            Refusal::Short => "the reason memory must be at least 3,968 bytes",
        })
    }
}

impl Error for Refusal {}
