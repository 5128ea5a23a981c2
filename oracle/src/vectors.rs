//! The fixed vectors: lists of calls with the published answers, as text.

use crate::book::{Answer, Book, Call, Check};
use crate::page::{code, Tally};
pub use crate::scenarios::{scenarios, Scenario};
use std::fmt::Write;

/// The name of the file in the folder of vectors.
pub const FILE: &str = "calls.txt";

/// Where the file lies, seen from this package.
pub const FOLDER: &str = concat!(env!("CARGO_MANIFEST_DIR"), "/../vectors");

const HEAD: &str = "\
# Calls and their answers. Written by `cargo run --release --bin vectors` in oracle/: the calls are
# chosen there, the answers to checks are those of the published Rust, compiled unchanged, with later
# repeats struck, and the refusals are document 01's book of the calls. Do not edit by hand.
# A line is a comment, or decimal numbers with one space between them. The first says what it is:
#   1 h w n colours m clues   make a board of n colours and m clues (-1 is none)
#   2 border side             decide: side 1 is wall, 0 is open
#   3                         undo
#   4 places                  check with this many places of reason memory
#   5 border side places      preview with this many places of reason memory
# After each of these stands what is expected:
#   9 number                  0 made or done, otherwise the refusal
#   10 count                  pass, with the count of undecided borders
#   11 n codes                conflict of n literals; a code is twice the border, plus 1 for wall
# A call that is lent a tally record has it in the line before, and what it holds then behind the answer:
#   6 undecided walls opens   the record as it is lent
#   12 undecided walls opens  the record afterwards
# Calls go to the board made last; after a refused 1 there are none. Refusal 5 (alien) is always for
# the record: no list of calls makes a board alien.
";

/// The whole file; `check` gives the answers.
pub fn text(check: &mut Check) -> String {
    let mut text = HEAD.to_string();
    for scenario in scenarios() {
        write_scenario(&mut text, &scenario, check);
    }
    text
}

fn write_scenario(text: &mut String, scenario: &Scenario, check: &mut Check) {
    writeln!(text, "# {}", scenario.title).unwrap();
    let puzzle = &scenario.puzzle;
    write!(text, "1 {} {}", puzzle.h, puzzle.w).unwrap();
    for list in [&puzzle.colours, &puzzle.clues] {
        write!(text, " {}", list.len()).unwrap();
        for number in list {
            write!(text, " {number}").unwrap();
        }
    }
    text.push('\n');
    let mut book = match Book::open(puzzle) {
        Ok(book) => book,
        Err(number) => return writeln!(text, "9 {number}").unwrap(),
    };
    text.push_str("9 0\n");
    for &asked in &scenario.calls {
        write_record(text, 6, asked.record);
        write_call(text, asked.call);
        let (answer, record) = book.reply(asked, check);
        write_answer(text, &answer);
        write_record(text, 12, record);
    }
}

fn write_record(text: &mut String, what: usize, record: Option<Tally>) {
    if let Some(record) = record {
        let [undecided, walls, opens] = record.counts();
        writeln!(text, "{what} {undecided} {walls} {opens}").unwrap();
    }
}

fn write_call(text: &mut String, call: Call) {
    match call {
        Call::Decide((border, wall)) => writeln!(text, "2 {border} {}", u8::from(wall)),
        Call::Undo => writeln!(text, "3"),
        Call::Check(places) => writeln!(text, "4 {places}"),
        Call::Preview((border, wall), places) => {
            writeln!(text, "5 {border} {} {places}", u8::from(wall))
        }
    }
    .unwrap();
}

fn write_answer(text: &mut String, answer: &Answer) {
    match answer {
        Answer::Done => text.push_str("9 0"),
        Answer::Refused(number) => write!(text, "9 {number}").unwrap(),
        Answer::Pass(count) => write!(text, "10 {count}").unwrap(),
        Answer::Conflict(reason) => {
            write!(text, "11 {}", reason.len()).unwrap();
            for literal in reason {
                write!(text, " {}", code(literal)).unwrap();
            }
        }
    }
    text.push('\n');
}
