//! Pages as text, as document 01's section "Page program" has them: puzzles and calls written as a
//! page, a page read back, and answers printed. The reader takes accepted pages only; which pages
//! are accepted is judged elsewhere (`../tools/page_judge.py`).

use crate::book::{book, refusal, Answer, Asked, Call, Check, PLACES};
use crate::page::Puzzle;
use crate::vectors::{scenarios, Scenario};
use std::fmt::Write;

/// A page with what it prints, by name.
pub struct Sample {
    pub name: String,
    pub page: String,
    pub answers: String,
}

/// The page of a puzzle and calls. Its rows are the colours, so many of them as the width says.
pub fn page(puzzle: &Puzzle, calls: &[Call]) -> String {
    let mut text = format!("(page\n(size {} {})\n", puzzle.h, puzzle.w);
    for row in puzzle.colours.chunks(puzzle.w.max(1)) {
        let digits: Vec<String> = row.iter().map(i32::to_string).collect();
        writeln!(text, "(row {})", digits.concat()).unwrap();
    }
    for (cell, &clue) in puzzle.clues.iter().enumerate() {
        if clue >= 0 {
            let (y, x) = (cell / puzzle.w, cell % puzzle.w);
            writeln!(text, "(clue {y} {x} {clue})").unwrap();
        }
    }
    for call in calls {
        match call {
            Call::Decide((border, wall)) => {
                writeln!(text, "(decide {border} {})", u8::from(*wall)).unwrap();
            }
            Call::Undo => text.push_str("(undo)\n"),
            Call::Check(_) => text.push_str("(check)\n"),
            Call::Preview(..) => panic!("no page has a preview"),
        }
    }
    text + ")\n"
}

/// The puzzle and the calls of an accepted page.
pub fn read(text: &str) -> (Puzzle, Vec<Call>) {
    let (mut h, mut w, mut colours, mut calls) = (0, 0, vec![], vec![]);
    let mut clues = vec![];
    for line in text.lines() {
        let words: Vec<&str> = line.trim_matches(['(', ')']).split(' ').collect();
        let number = |at: usize| words[at].parse::<usize>().expect(line);
        match words[0] {
            "size" => (h, w) = (number(1), number(2)),
            "row" => colours.extend(words[1].bytes().map(|digit| i32::from(digit - b'0'))),
            "clue" => clues.push((number(1) * w + number(2), number(3) as i32)),
            "decide" => calls.push(Call::Decide((number(1), words[2] == "1"))),
            "undo" => calls.push(Call::Undo),
            "check" => calls.push(Call::Check(PLACES)),
            _ => {}
        }
    }
    let mut puzzle = Puzzle::without_clues(h, w, colours);
    for (cell, clue) in clues {
        puzzle.clues[cell] = clue;
    }
    (puzzle, calls)
}

/// What the page program prints: the page's refusal, or the answers of its calls.
pub fn printed(answers: &Result<Vec<Answer>, u32>) -> String {
    let mut text = String::from("(answers\n");
    match answers {
        Err(number) => writeln!(text, "(refused {number})").unwrap(),
        Ok(answers) => answers.iter().for_each(|answer| line(&mut text, answer)),
    }
    text + ")\n"
}

fn line(text: &mut String, answer: &Answer) {
    match answer {
        Answer::Done => return,
        Answer::Refused(number) => write!(text, "(refused {number})").unwrap(),
        Answer::Pass(count) => write!(text, "(pass {count})").unwrap(),
        Answer::Conflict(reason) => {
            text.push_str("(conflict");
            for &(border, wall) in reason {
                write!(text, " {border}{}", if wall { 'w' } else { 'o' }).unwrap();
            }
            text.push(')');
        }
    }
    text.push('\n');
}

/// What a page of this puzzle and these calls prints.
pub fn answers(puzzle: &Puzzle, calls: &[Call], check: &mut Check) -> String {
    printed(&book(puzzle, calls, check))
}

/// Whether a page can spell the puzzle: it is accepted; or it is refused and has no clue, as many
/// places for clues as colours, and colours that are digits.
fn spelled(puzzle: &Puzzle) -> bool {
    let bare = puzzle.clues == vec![-1; puzzle.colours.len()];
    let digits = puzzle.colours.iter().all(|colour| (0..10).contains(colour));
    refusal(puzzle).is_none() || bare && digits
}

/// Whether a page can spell the call: it is no preview, and no check with short reason memory.
pub fn has(call: &Call) -> bool {
    match call {
        Call::Check(places) => *places >= PLACES,
        Call::Preview(..) => false,
        _ => true,
    }
}

/// The vectors as pages: every list of calls without previews and records that a page can spell,
/// without the checks with short reason memory.
pub fn samples(check: &mut Check) -> Vec<Sample> {
    let mut all = vec![];
    for (number, scenario) in scenarios().into_iter().enumerate() {
        let Scenario {
            title,
            puzzle,
            calls,
        } = scenario;
        let unspelled =
            |asked: &Asked| asked.record.is_some() || matches!(asked.call, Call::Preview(..));
        if spelled(&puzzle) && !calls.iter().any(unspelled) {
            let calls: Vec<Call> = calls.iter().map(|a| a.call).filter(has).collect();
            let word = |c: char| if c.is_ascii_alphanumeric() { c } else { '-' };
            let words: String = title.chars().map(word).collect();
            let words: Vec<&str> = words.split('-').filter(|word| !word.is_empty()).collect();
            all.push(Sample {
                name: format!("{number:02}-{}", words.join("-")),
                page: page(&puzzle, &calls),
                answers: answers(&puzzle, &calls, check),
            });
        }
    }
    all
}
