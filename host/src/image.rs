//! The layout of a board image.

use crate::literal::{Literal, Side};
use crate::tally::Tally;

/// The largest height and width of a page.
pub const SIDE_LIMIT: usize = 32;

const CELL_LIMIT: usize = SIDE_LIMIT * SIDE_LIMIT;
const BORDER_LIMIT: usize = 2 * SIDE_LIMIT * (SIDE_LIMIT - 1);

// Where the parts of an image start: height and width, colours, clues of 4 bytes, borders, the count of the stack in 2
// bytes, its entries of 2 bytes, the three counts of the tally of 2 bytes each. Low byte first; unused places are 0.
const COLOURS_AT: usize = 2;
const CLUES_AT: usize = COLOURS_AT + CELL_LIMIT;
const BORDERS_AT: usize = CLUES_AT + 4 * CELL_LIMIT;
const COUNT_AT: usize = BORDERS_AT + BORDER_LIMIT;
const STACK_AT: usize = COUNT_AT + 2;
const UNDECIDED_AT: usize = STACK_AT + 2 * BORDER_LIMIT;
const WALLS_AT: usize = UNDECIDED_AT + 2;
const OPENS_AT: usize = WALLS_AT + 2;

/// The length of a board image in bytes: 11,082.
pub const IMAGE_LENGTH: usize = OPENS_AT + 2;

/// The least length of reason memory in bytes: 3,968. A reason names no border twice.
const MEMORY_LENGTH: usize = 2 * BORDER_LIMIT;

pub type Image = [u8; IMAGE_LENGTH];
pub type Memory = [u8; MEMORY_LENGTH];

/// Bytes to make an image in.
pub fn blank() -> Box<Image> {
    Box::new([0; IMAGE_LENGTH])
}

/// Memory for the longest reason.
pub fn memory() -> Box<Memory> {
    Box::new([0; MEMORY_LENGTH])
}

fn two(image: &Image, at: usize) -> usize {
    usize::from(u16::from_le_bytes([image[at], image[at + 1]]))
}

pub fn height(image: &Image) -> usize {
    usize::from(image[0])
}

pub fn width(image: &Image) -> usize {
    usize::from(image[1])
}

pub fn colour(image: &Image, cell: usize) -> u8 {
    image[COLOURS_AT + cell]
}

pub fn clue(image: &Image, cell: usize) -> i32 {
    let at = CLUES_AT + 4 * cell;
    i32::from_le_bytes([image[at], image[at + 1], image[at + 2], image[at + 3]])
}

/// The side of a border that is on the page, or none if it is undecided.
pub fn side(image: &Image, border: usize) -> Option<Side> {
    match image[BORDERS_AT + border] {
        0 => None,
        byte => Some(Side::from(byte == 1)),
    }
}

/// How many borders are decided.
pub fn count(image: &Image) -> usize {
    two(image, COUNT_AT)
}

/// The literal that was decided at this turn.
pub fn entry(image: &Image, turn: usize) -> Literal {
    let border = two(image, STACK_AT + 2 * turn);
    let side = Side::from(image[BORDERS_AT + border] == 1);
    Literal { border, side }
}

/// How many borders are undecided, wall and open.
pub fn tally(image: &Image) -> Tally {
    Tally {
        undecided: two(image, UNDECIDED_AT),
        walls: two(image, WALLS_AT),
        opens: two(image, OPENS_AT),
    }
}
