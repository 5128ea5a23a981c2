//! The vectors of document 02, by an independent model, against the book and the published check, or
//! the plain one where the source is not there.

use oracle::book::{self, Answer, Book, Call, PLACES};
use oracle::drafts::above_half;
use oracle::image;
use oracle::page::Board;
use oracle::vectors02::{self, Damaged, Replied, Script};

/// How many calls, previews and records there are, records that are refused, and calls with short
/// memory; and how long the longest reason is.
#[derive(Debug, Default)]
struct Seen {
    calls: usize,
    previews: usize,
    records: usize,
    refused: usize,
    short: usize,
    longest: usize,
}

impl Seen {
    fn add(&mut self, one: &Replied) {
        let lent = one.asked.record.is_some();
        self.calls += 1;
        self.previews += usize::from(matches!(one.asked.call, Call::Preview(..)));
        self.records += usize::from(lent);
        self.refused += usize::from(lent && one.answer == Answer::Refused(5));
        self.short += usize::from(one.answer == Answer::Refused(9));
        if let Answer::Conflict(reason) = &one.answer {
            self.longest = self.longest.max(reason.len());
        }
    }
}

fn replay(script: &Script, seen: &mut Seen) {
    let mut book = Book::open(&script.puzzle).unwrap_or_else(|_| panic!("{}", script.id));
    for one in &script.calls {
        let (answer, record) = book.reply(one.asked, &mut oracle::check);
        assert_eq!(answer, one.answer, "{} {:?}", script.id, one.asked);
        assert_eq!(record, one.record, "{} {:?}", script.id, one.asked);
        seen.add(one);
    }
    assert_eq!(book.sequence(), script.end, "{}", script.id);
    assert_eq!(book.tally(), script.tally, "{}", script.id);
}

#[test]
fn the_book_has_their_answers() {
    let Some((makes, scripts)) = vectors02::flat() else {
        return;
    };
    for make in &makes {
        assert_eq!(book::refusal(&make.puzzle), make.refusal, "{}", make.id);
    }
    let mut seen = Seen::default();
    scripts.iter().for_each(|script| replay(script, &mut seen));
    let drafts = scripts.iter().filter(|script| above_half(&script.puzzle));
    let (made, drafts) = (makes.len(), drafts.count());
    println!(
        "{made} made, {} scripts, {drafts} drafts, {seen:?}",
        scripts.len()
    );
    assert!(!makes.is_empty() && drafts > 10 && seen.calls > 1_000 && seen.previews > 500);
    assert!(seen.records > 1_000 && seen.refused > 200);
    assert!(seen.short > 100 && seen.longest == PLACES);
}

/// The images of the damaged boards are alien; the image of the board before the damage is not.
#[test]
fn their_damaged_boards_are_alien() {
    let Some((_, scripts)) = vectors02::flat() else {
        return;
    };
    let (mut alien, mut by_tally) = (0, 0);
    for script in &scripts {
        for Damaged { after, places, .. } in &script.damaged {
            let mut book = Book::open(&script.puzzle).unwrap();
            for one in &script.calls[..*after] {
                book.reply(one.asked, &mut |_, _| None);
            }
            let (puzzle, decided) = (script.puzzle.clone(), book.sequence().to_vec());
            let mut image = image::write(&Board { puzzle, decided });
            assert!(image::read(&image).is_some(), "{}", script.id);
            for (field, index, number) in places {
                image::set(&mut image, field, *index, *number);
            }
            assert!(image::read(&image).is_none(), "{} {places:?}", script.id);
            alien += 1;
            by_tally += usize::from(places.iter().all(|place| place.0 == "tal"));
        }
    }
    println!("{alien} alien, {by_tally} by the tally alone");
    assert!(alien > 200 && by_tally > 30);
}
