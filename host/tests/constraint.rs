//! The drop-in's shapes and its panics. It is held against the published constraint in oracle/compare.

use dbchoco::{Constraint, Refusal};

fn made(color: &[&[i32]], num: &[&[Option<i32>]]) -> Result<Constraint, Refusal> {
    let color: Vec<Vec<i32>> = color.iter().map(|row| row.to_vec()).collect();
    let num: Vec<Vec<Option<i32>>> = num.iter().map(|row| row.to_vec()).collect();
    Constraint::new(&color, &num)
}

#[test]
fn rows_become_a_page() {
    let num: [&[Option<i32>]; 2] = [&[None, Some(-1), Some(3)], &[Some(0), None, None]];
    let mut constraint = made(&[&[0, 1, 1], &[1, 0, 0]], &num).unwrap();
    let board = constraint.board();
    assert_eq!((board.height(), board.width()), (2, 3));
    assert_eq!((board.colour(0, 1), board.colour(1, 1)), (Some(1), Some(0)));
    let clues = [(0, 1), (0, 2), (1, 0)].map(|(y, x)| board.clue(y, x));
    assert_eq!(clues, [None, Some(3), Some(0)]);
}

#[test]
fn unfit_rows_are_refused() {
    let none: &[Option<i32>] = &[None, None];
    let refusal = |color: &[&[i32]], num: &[&[Option<i32>]]| made(color, num).unwrap_err();
    assert_eq!(refusal(&[], &[]), Refusal::Size);
    assert_eq!(refusal(&[&[]], &[&[]]), Refusal::Size);
    assert_eq!(refusal(&[&[0, 1], &[0]], &[none, none]), Refusal::Ragged);
    assert_eq!(refusal(&[&[0, 1], &[0, 1]], &[none]), Refusal::Ragged);
    let uneven: [&[Option<i32>]; 2] = [&[None], &[None, None, None]];
    assert_eq!(refusal(&[&[0, 1], &[0, 1]], &uneven), Refusal::Ragged);
    for colour in [2, -1, 256, 257] {
        assert_eq!(refusal(&[&[0, colour]], &[none]), Refusal::Colour);
    }
    assert_eq!(refusal(&[&[0, 1]], &[&[None, Some(-2)]]), Refusal::Clue);
}

fn pair() -> Constraint {
    made(&[&[0, 1]], &[&[None, None]]).unwrap()
}

#[test]
#[should_panic(expected = "the inputs are the page's borders")]
fn another_count_of_inputs_panics() {
    pair().initialize_sat(2);
}

#[test]
#[should_panic(expected = "border 0: the border is decided already")]
fn a_border_twice_panics() {
    let mut constraint = pair();
    constraint.notify(0, true);
    constraint.notify(0, false);
}

#[test]
#[should_panic(expected = "border 1: the page has no border of this number")]
fn a_border_off_the_page_panics() {
    pair().notify(1, true);
}

#[test]
#[should_panic(expected = "undo: there is no decision to undo")]
fn an_undo_too_many_panics() {
    pair().undo();
}

#[test]
fn kept_calls_are_made_before_the_board_is_shown() {
    let mut constraint = pair();
    constraint.notify(0, true);
    assert_eq!(constraint.board().side(0), Some(dbchoco::Side::Wall));
    constraint.undo();
    constraint.notify(0, false);
    constraint.undo();
    assert_eq!(constraint.board().decided().len(), 0);
}
