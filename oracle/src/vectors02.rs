//! The vectors for document 02, made by an independent model with all its requests in force: of the
//! flat pages what is in force here, which is making a board, decides, undos, checks and previews, with
//! a lent tally record or none.
//!
//! A script has other calls too. Those leave the board, but for a player whose board the script goes
//! on with: its trail is decided. Calls refused with 14 or 15, and with 5 for a mark, are left out;
//! those on a damaged board stand by themselves.

use crate::book::{Answer, Asked, Call, ALIEN};
use crate::json::Json;
use crate::page::{Literal, Puzzle, Tally};
use std::path::PathBuf;
use std::{env, fs};

/// A puzzle, and whether its board is made.
pub struct Make {
    pub id: String,
    pub puzzle: Puzzle,
    pub refusal: Option<u32>,
}

/// A puzzle, calls on its board, and the literals and the tally that stand at the end.
pub struct Script {
    pub id: String,
    pub puzzle: Puzzle,
    pub calls: Vec<Replied>,
    pub damaged: Vec<Damaged>,
    pub end: Vec<Literal>,
    pub tally: Tally,
}

/// A call with its answer, and what the record that it is lent holds afterwards.
pub struct Replied {
    pub asked: Asked,
    pub answer: Answer,
    pub record: Option<Tally>,
}

/// A call on a damaged copy of the board that stands after so many calls of the script. It is refused
/// with 5, and a lent record keeps its contents.
pub struct Damaged {
    pub after: usize,
    /// Field, index and number of each place that is damaged.
    pub places: Vec<(String, usize, i64)>,
    pub asked: Asked,
}

/// The file: the environment variable DBCHOCO_VECTORS02, or where it lies beside the repository.
fn file() -> PathBuf {
    let beside = concat!(
        env!("CARGO_MANIFEST_DIR"),
        "/../../shared/vectors02/vectors02.jsonl"
    );
    env::var_os("DBCHOCO_VECTORS02").map_or(PathBuf::from(beside), PathBuf::from)
}

/// The lines of the file; none, and it says so, where it is not there.
fn lines() -> Option<Vec<Json>> {
    let Ok(text) = fs::read_to_string(file()) else {
        println!("skipped: no vectors of document 02");
        return None;
    };
    Some(text.lines().map(Json::read).collect())
}

/// The flat pages that are made or refused, and the scripts on flat pages.
pub fn flat() -> Option<(Vec<Make>, Vec<Script>)> {
    let (mut makes, mut scripts) = (vec![], vec![]);
    for line in lines()? {
        if let Some(size) = line.get("make").and_then(|made| made.get("flat")) {
            makes.push(make(&line, size));
        } else if let Some(size) = line.get("flat") {
            scripts.push(script(&line, size));
        }
    }
    Some((makes, scripts))
}

fn id(line: &Json) -> String {
    line.at("id").text().to_string()
}

fn make(line: &Json, size: &Json) -> Make {
    let integers = |key: &str| line.at(key).numbers().iter().map(|&n| n as i32).collect();
    let refusal = match answer(line.at("a")) {
        Answer::Refused(number) => Some(number),
        _ => None,
    };
    Make {
        id: id(line),
        puzzle: puzzle(size, integers("col"), integers("clu")),
        refusal,
    }
}

fn puzzle(size: &Json, colours: Vec<i32>, clues: Vec<i32>) -> Puzzle {
    let [h, w] = [0, 1].map(|at| size.numbers()[at] as usize);
    Puzzle {
        h,
        w,
        colours,
        clues,
    }
}

fn script(line: &Json, size: &Json) -> Script {
    let digits = line.at("col").text().bytes();
    let colours: Vec<i32> = digits.map(|digit| i32::from(digit - b'0')).collect();
    let mut clues = vec![-1; colours.len()];
    for clue in line.at("clu").list() {
        let [cell, number] = [0, 1].map(|at| clue.numbers()[at]);
        clues[cell as usize] = number as i32;
    }
    let (mut calls, mut damaged) = (vec![], vec![]);
    for call in line.at("calls").list() {
        match call.get("hurt") {
            Some(places) => damaged.extend(on_damage(call, places, calls.len())),
            None => calls.extend(in_force(call, standing(&calls))),
        }
    }
    let end = line.at("end");
    Script {
        id: id(line),
        puzzle: puzzle(size, colours, clues),
        calls,
        damaged,
        end: literals(end.at("st")),
        tally: tally(end.at("tally")),
    }
}

/// How many decisions stand after the calls.
fn standing(calls: &[Replied]) -> usize {
    let done = calls.iter().filter(|one| one.answer == Answer::Done);
    done.fold(0, |count, one| match one.asked.call {
        Call::Undo => count - 1,
        _ => count + 1,
    })
}

fn tally(counts: &Json) -> Tally {
    let counts = counts.numbers();
    Tally::from([0, 1, 2].map(|at| counts[at] as usize))
}

/// The literals of a list of codes.
fn literals(codes: &Json) -> Vec<Literal> {
    let literal = |code: i64| (code as usize / 2, code % 2 == 1);
    codes.numbers().into_iter().map(literal).collect()
}

fn answer(answer: &Json) -> Answer {
    let [word, rest @ ..] = answer.list() else {
        panic!("no answer: {answer:?}");
    };
    match word.text() {
        "refused" => Answer::Refused(rest[0].number() as u32),
        "pass" => Answer::Pass(rest[0].number() as usize),
        "conflict" => Answer::Conflict(literals(&rest[0])),
        _ => Answer::Done,
    }
}

/// The call with what it is lent, where it is a decide, an undo, a check or a preview.
fn asked(call: &Json) -> Option<Asked> {
    let number = |key: &str| call.at(key).number() as usize;
    let literal = || (number("b"), number("s") == 1);
    let record = call.get("rec").map(tally);
    let call = match call.at("op").text() {
        "decide" => Call::Decide(literal()),
        "undo" => Call::Undo,
        "check" => Call::Check(number("mem")),
        "preview" => Call::Preview(literal(), number("mem")),
        _ => return None,
    };
    Some(Asked { call, record })
}

/// What of a call is in force here, on a board on which so many decisions stand.
fn in_force(call: &Json, standing: usize) -> Vec<Replied> {
    let answer = answer(call.at("a"));
    let mark = call.get("mark").map_or(0, |mark| mark.number() as usize);
    let by_the_mark = answer == Answer::Refused(ALIEN) && mark > standing;
    if by_the_mark || matches!(answer, Answer::Refused(14 | 15)) {
        return vec![];
    }
    if call.at("op").text() == "player" && call.get("keep") == Some(&Json::Number(1)) {
        let trail = literals(&call.at("a").list()[1]);
        let decided = |literal| Replied {
            asked: Call::Decide(literal).into(),
            answer: Answer::Done,
            record: None,
        };
        return trail.into_iter().map(decided).collect();
    }
    let replied = |asked| Replied {
        asked,
        answer,
        record: call.get("rec2").map(tally),
    };
    asked(call).map(replied).into_iter().collect()
}

/// The call on a board that is damaged in these places, after so many calls.
fn on_damage(call: &Json, places: &Json, after: usize) -> Option<Damaged> {
    let place = |damage: &Json| {
        let [field, numbers @ .., number] = damage.list() else {
            panic!("no damage: {damage:?}");
        };
        let index = numbers.first().map_or(0, |index| index.number() as usize);
        (field.text().to_string(), index, number.number())
    };
    let asked = asked(call)?;
    assert_eq!(answer(call.at("a")), Answer::Refused(ALIEN), "{call:?}");
    assert_eq!(call.get("rec2").map(tally), asked.record, "{call:?}");
    let places = places.list().iter().map(place).collect();
    Some(Damaged {
        after,
        places,
        asked,
    })
}
