//! The vectors of document 02, by an independent model: through the exported calls on an image, its
//! checks through crate probe on a board too, and its previews and calls with a lent record through
//! crate probe.

use compare::checks::Trial;
use compare::images::our_fresh;
use compare::ours::Memory;
use compare::tally::reply;
use oracle::book::{Answer, Asked, Call, PLACES};
use oracle::image;
use oracle::page::{Puzzle, Tally};
use oracle::random::Random;
use oracle::vectors02::{self, Damaged, Script};

/// An image made of a puzzle, and the number.
fn made(puzzle: &Puzzle) -> (Vec<u8>, u32) {
    let mut bytes = vec![90; image::LENGTH];
    let colours: Vec<u8> = puzzle.colours.iter().map(|&colour| colour as u8).collect();
    let (h, w) = (puzzle.h as u32, puzzle.w as u32);
    let number = our_fresh(&mut bytes, h, w, &colours, &puzzle.clues);
    (bytes, number)
}

/// What the call answers, and what its record holds afterwards. Memory has the vectors' contents.
fn replied(bytes: &mut [u8], asked: Asked) -> (Answer, Option<Tally>) {
    let places = match asked.call {
        Call::Check(places) | Call::Preview(_, places) => places,
        _ => 0,
    };
    let content = |place: usize| (40_503 * place + 12_345) as u16;
    let mut memory = Memory::holding((0..places).map(content).collect());
    reply(bytes, asked, &mut memory)
}

/// The script's calls on damaged copies of the image that stands after so many calls: each is refused
/// with 5, and leaves the copy and the record.
fn damaged(script: &Script, after: usize, bytes: &[u8]) -> usize {
    let calls = script.damaged.iter().filter(|call| call.after == after);
    let mut count = 0;
    for Damaged { places, asked, .. } in calls {
        let mut copy = bytes.to_vec();
        for (field, index, number) in places {
            image::set(&mut copy, field, *index, *number);
        }
        let before = copy.clone();
        let wanted = (Answer::Refused(5), asked.record);
        assert_eq!(
            replied(&mut copy, *asked),
            wanted,
            "{} {asked:?}",
            script.id
        );
        assert!(copy == before, "{} {asked:?}", script.id);
        count += 1;
    }
    count
}

/// How many calls were replayed.
#[derive(Debug, Default)]
struct Seen {
    checks: usize,
    previews: usize,
    records: usize,
    alien_records: usize,
    alien_boards: usize,
}

/// An answered check or preview on a board that is made anew.
fn on_a_board(script: &Script, bytes: &[u8], call: Call, memory: &mut Memory) -> Answer {
    let mut board = image::read(bytes).unwrap_or_else(|| panic!("{}: alien", script.id));
    if let Call::Preview(literal, _) = call {
        board.decided.push(literal);
    }
    Trial::new(&board).answer(memory)
}

/// The calls of a script on its image.
fn replay(script: &Script, memory: &mut Memory, seen: &mut Seen) {
    let (mut bytes, number) = made(&script.puzzle);
    assert_eq!(number, 0, "{}", script.id);
    seen.alien_boards += damaged(script, 0, &bytes);
    for (i, one) in script.calls.iter().enumerate() {
        let (answer, record) = replied(&mut bytes, one.asked);
        assert_eq!(answer, one.answer, "{} {:?}", script.id, one.asked);
        assert_eq!(record, one.record, "{} {:?}", script.id, one.asked);
        if matches!(one.answer, Answer::Pass(_) | Answer::Conflict(_)) {
            let answer = on_a_board(script, &bytes, one.asked.call, memory);
            assert_eq!(answer, one.answer, "{} on a board", script.id);
            let preview = matches!(one.asked.call, Call::Preview(..));
            seen.checks += usize::from(!preview);
            seen.previews += usize::from(preview);
        }
        seen.records += usize::from(record.is_some());
        seen.alien_records += usize::from(one.answer == Answer::Refused(5));
        seen.alien_boards += damaged(script, i + 1, &bytes);
    }
    let end = image::read(&bytes).unwrap_or_else(|| panic!("{}: alien", script.id));
    assert_eq!(end.decided, script.end, "{}", script.id);
    assert_eq!(image::tally(&bytes), script.tally, "{}", script.id);
}

#[test]
fn the_exported_calls_have_their_answers() {
    let Some((makes, scripts)) = vectors02::flat() else {
        return;
    };
    for make in &makes {
        let number = made(&make.puzzle).1;
        assert_eq!(number, make.refusal.unwrap_or(0), "{}", make.id);
    }
    let mut memory = Memory::new(&mut Random::new(70), PLACES);
    let mut seen = Seen::default();
    for script in &scripts {
        replay(script, &mut memory, &mut seen);
    }
    println!("{} made, {} scripts, {seen:?}", makes.len(), scripts.len());
    assert!(!makes.is_empty() && seen.checks > 1_000 && seen.previews > 500);
    assert!(seen.records > 1_000 && seen.alien_records > 200 && seen.alien_boards > 200);
}
