//! Safe calls of crate probe: the proved check.

use crate::ours::Memory;
use oracle::book::Answer;
use oracle::page::{code, Board, Literal};
use std::collections::BTreeSet;

// A slice goes over as its address and its length.
extern "C" {
    fn probe_checks(
        h: usize,
        w: usize,
        colours: *const u8,
        colours_length: usize,
        clues: *const i32,
        clues_length: usize,
        codes: *const u16,
        codes_length: usize,
        each: usize,
        times: usize,
        memory: *mut u16,
        memory_length: usize,
    ) -> usize;
    fn probe_board_checks(
        image: *const u8,
        image_length: usize,
        times: usize,
        memory: *mut u16,
        memory_length: usize,
    ) -> usize;
}

/// The number of the last of so many checks of the board that an image spells; 0 for none.
pub fn board_checks(image: &[u8], times: usize, memory: &mut [u16]) -> usize {
    // SAFETY: addresses and lengths are those of slices that live through the call.
    unsafe {
        probe_board_checks(
            image.as_ptr(),
            image.len(),
            times,
            memory.as_mut_ptr(),
            memory.len(),
        )
    }
}

/// A puzzle and literals to decide, as the proved functions take them. Nothing is promised of them.
#[derive(Clone, Debug)]
pub struct Trial {
    pub h: usize,
    pub w: usize,
    pub colours: Vec<u8>,
    pub clues: Vec<i32>,
    pub codes: Vec<u16>,
}

impl Trial {
    pub fn new(board: &Board) -> Trial {
        let puzzle = &board.puzzle;
        Trial {
            h: puzzle.h,
            w: puzzle.w,
            colours: puzzle.colours.iter().map(|&colour| colour as u8).collect(),
            clues: puzzle.clues.clone(),
            codes: board.decided.iter().map(|l| code(l) as u16).collect(),
        }
    }

    /// So many checks after each decide, and so many at the end: the number of the last; 0 for none.
    fn checks(&self, each: usize, times: usize, memory: &mut [u16]) -> usize {
        // SAFETY: addresses and lengths are those of slices that live through the call.
        unsafe {
            probe_checks(
                self.h,
                self.w,
                self.colours.as_ptr(),
                self.colours.len(),
                self.clues.as_ptr(),
                self.clues.len(),
                self.codes.as_ptr(),
                self.codes.len(),
                each,
                times,
                memory.as_mut_ptr(),
                memory.len(),
            )
        }
    }

    /// The number of the last of so many checks, after all literals are decided; 0 for no check.
    pub fn check(&self, times: usize, memory: &mut [u16]) -> usize {
        self.checks(0, times, memory)
    }

    /// A check after each decide, and one more at the end, whose number is given.
    pub fn stream(&self, memory: &mut [u16]) -> usize {
        self.checks(1, 1, memory)
    }

    /// At most so many borders are decided: one that is named twice is refused the second time.
    fn decided(&self) -> usize {
        borders(&self.codes).len()
    }

    /// What one check answers. The memory beyond the reason must be as it was.
    pub fn answer(&self, memory: &mut Memory) -> Answer {
        let (number, written) = memory.lend_for(|places| self.check(1, places), reason_length);
        answer(number, &written, self.decided())
    }
}

/// How many literals an answer's number tells of.
pub fn reason_length(number: usize) -> usize {
    number.saturating_sub(65_536)
}

fn literal(code: &u16) -> Literal {
    (usize::from(code / 2), code % 2 == 1)
}

/// The number that document 01 gives to an answer.
pub fn number(answer: &Answer) -> u32 {
    match answer {
        Answer::Done => 0,
        Answer::Refused(number) => *number,
        Answer::Pass(count) => 32 + *count as u32,
        Answer::Conflict(reason) => 65_536 + reason.len() as u32,
    }
}

/// The borders that literals name.
fn borders(codes: &[u16]) -> BTreeSet<u16> {
    codes.iter().map(|code| code / 2).collect()
}

/// A reason on a board with so many decided borders names no border twice, and has at most as many
/// literals as there are decided borders.
pub fn look_at_reason(codes: &[u16], decided: usize) {
    let named = borders(codes).len();
    assert_eq!(named, codes.len(), "a border is named twice: {codes:?}");
    assert!(named <= decided, "{named} borders of {decided}: {codes:?}");
}

/// The answer with this number, on a board with so many decided borders.
pub fn answer(number: usize, written: &[u16], decided: usize) -> Answer {
    match number {
        0 => Answer::Done,
        1..=31 => Answer::Refused(number as u32),
        32..=65_535 => Answer::Pass(number - 32),
        _ => {
            look_at_reason(written, decided);
            Answer::Conflict(written.iter().map(literal).collect())
        }
    }
}
