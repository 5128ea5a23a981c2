//! Document 01's book of a list of calls, with document 02's previews and lent tally records. It knows
//! the puzzle and the calls, never a board; the check is handed in, so that the published one and the
//! port's can both stand behind it.

use crate::page::{self, Literal, Puzzle, Tally};

/// The reason of the first hit on a puzzle with just these literals decided, or none for a pass.
pub type Check<'a> = dyn FnMut(&Puzzle, &[Literal]) -> Option<Vec<Literal>> + 'a;

/// The largest height and width.
pub const SIDE: usize = 32;
/// The least reason memory of a check, in literals.
pub const PLACES: usize = 1_984;

pub const SIZE: u32 = 1;
pub const RAGGED: u32 = 2;
pub const COLOUR: u32 = 3;
pub const CLUE: u32 = 4;
pub const ALIEN: u32 = 5;
pub const BORDER: u32 = 6;
pub const TAKEN: u32 = 7;
pub const BARE: u32 = 8;
pub const SHORT: u32 = 9;

#[derive(Clone, Copy, Debug, PartialEq, Eq)]
pub enum Call {
    Decide(Literal),
    Undo,
    /// A check with this many places of reason memory.
    Check(usize),
    /// A preview of the literal with this many places of reason memory.
    Preview(Literal, usize),
}

/// A call, and the tally record that it is lent, where it is lent one.
#[derive(Clone, Copy, Debug, PartialEq, Eq)]
pub struct Asked {
    pub call: Call,
    pub record: Option<Tally>,
}

/// A call that is lent no record.
impl From<Call> for Asked {
    fn from(call: Call) -> Asked {
        Asked { call, record: None }
    }
}

#[derive(Clone, Debug, PartialEq, Eq)]
pub enum Answer {
    Done,
    Refused(u32),
    Pass(usize),
    Conflict(Vec<Literal>),
}

/// The refusal of making a puzzle's board, if there is one.
pub fn refusal(puzzle: &Puzzle) -> Option<u32> {
    let side = |n: usize| (1..=SIDE).contains(&n);
    if !side(puzzle.h) || !side(puzzle.w) {
        return Some(SIZE);
    }
    if puzzle.colours.len() != puzzle.cells() || puzzle.clues.len() != puzzle.cells() {
        return Some(RAGGED);
    }
    if puzzle
        .colours
        .iter()
        .any(|&colour| colour != 0 && colour != 1)
    {
        return Some(COLOUR);
    }
    if puzzle.clues.iter().any(|&clue| clue < -1) {
        return Some(CLUE);
    }
    None
}

/// The book of an accepted puzzle.
#[derive(Clone)]
pub struct Book {
    puzzle: Puzzle,
    sequence: Vec<Literal>,
}

impl Book {
    /// The empty book, or the number of the refusal.
    pub fn open(puzzle: &Puzzle) -> Result<Book, u32> {
        match refusal(puzzle) {
            Some(number) => Err(number),
            None => Ok(Book {
                puzzle: puzzle.clone(),
                sequence: vec![],
            }),
        }
    }

    pub fn sequence(&self) -> &[Literal] {
        &self.sequence
    }

    pub fn tally(&self) -> Tally {
        page::tally(&self.puzzle, &self.sequence)
    }

    /// The answer, and what the lent record holds afterwards. A record that disagrees with the
    /// sequence is alien, before all else; a decide or undo that is done updates the record.
    pub fn reply(&mut self, asked: Asked, check: &mut Check) -> (Answer, Option<Tally>) {
        let Asked { call, record } = asked;
        if record.is_some_and(|record| record != self.tally()) {
            return (Answer::Refused(ALIEN), record);
        }
        match self.answer(call, check) {
            Answer::Done => (Answer::Done, record.map(|_| self.tally())),
            other => (other, record),
        }
    }

    /// The answer to a call that is lent no record.
    pub fn answer(&mut self, call: Call, check: &mut Check) -> Answer {
        match call {
            Call::Decide(literal) => self.decide(literal),
            Call::Undo => self.undo(),
            Call::Check(places) => self.check(places, check),
            Call::Preview(literal, places) => self.clone().preview(literal, places, check),
        }
    }

    fn check(&self, places: usize, check: &mut Check) -> Answer {
        if places < PLACES {
            return Answer::Refused(SHORT);
        }
        match check(&self.puzzle, &self.sequence) {
            None => Answer::Pass(self.puzzle.borders() - self.sequence.len()),
            Some(reason) => Answer::Conflict(reason),
        }
    }

    /// A decide, and a check where it is done: of a copy, which is not kept.
    fn preview(mut self, literal: Literal, places: usize, check: &mut Check) -> Answer {
        match self.decide(literal) {
            Answer::Done => self.check(places, check),
            refused => refused,
        }
    }

    fn decide(&mut self, literal: Literal) -> Answer {
        if literal.0 >= self.puzzle.borders() {
            return Answer::Refused(BORDER);
        }
        if self.sequence.iter().any(|&(border, _)| border == literal.0) {
            return Answer::Refused(TAKEN);
        }
        self.sequence.push(literal);
        Answer::Done
    }

    fn undo(&mut self) -> Answer {
        match self.sequence.pop() {
            Some(_) => Answer::Done,
            None => Answer::Refused(BARE),
        }
    }
}

/// The answers of a list of calls on an accepted puzzle, or the refusal of the puzzle.
pub fn book(puzzle: &Puzzle, calls: &[Call], check: &mut Check) -> Result<Vec<Answer>, u32> {
    let mut book = Book::open(puzzle)?;
    Ok(calls.iter().map(|&call| book.answer(call, check)).collect())
}
