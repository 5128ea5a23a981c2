//! What the fixed vectors are: puzzles and calls on their boards.

use crate::book::{Asked, Book, Call, PLACES};
use crate::page::{Board, Literal, Puzzle, Tally};
use crate::plain::{self, Branch, Hit, View, BRANCHES};
use crate::random::Random;
use crate::records::Kept;
use crate::{bench, generate, pieces, shapes};

/// A puzzle and calls on its board.
pub struct Scenario {
    pub title: String,
    pub puzzle: Puzzle,
    pub calls: Vec<Asked>,
}

const CHECK: Call = Call::Check(PLACES);

fn scenario<C: Into<Asked>>(title: &str, puzzle: Puzzle, calls: Vec<C>) -> Scenario {
    Scenario {
        title: title.to_string(),
        puzzle,
        calls: calls.into_iter().map(C::into).collect(),
    }
}

/// All of them.
pub fn scenarios() -> Vec<Scenario> {
    let mut all = refused_puzzles();
    all.extend(small_boards());
    all.extend(refused_calls());
    all.extend(large_pages());
    let pool = pool();
    all.extend(of_branches(&pool));
    all.extend(of_classes());
    all.extend(of_mistakes(&pool));
    all.extend(long_lists());
    all.extend(of_orders());
    all.extend(of_drafts());
    all.extend(of_previews());
    all.extend(of_records());
    all.extend(longest_reason());
    all
}

fn refused_puzzles() -> Vec<Scenario> {
    let make = |title: &str, h, w, colours: Vec<i32>, clues: Vec<i32>| {
        let puzzle = Puzzle {
            h,
            w,
            colours,
            clues,
        };
        scenario::<Call>(title, puzzle, vec![])
    };
    let none = |n: usize| vec![-1; n];
    vec![
        make("height 33", 33, 1, vec![0; 33], none(33)),
        make("width 33", 1, 33, vec![0; 33], none(33)),
        make("height 0", 0, 1, vec![], vec![]),
        make("width 0, and ragged", 1, 0, vec![0], none(1)),
        make("height 256", 256, 1, vec![0; 2], none(2)),
        make("a colour too few", 1, 2, vec![0], none(2)),
        make("a colour too many", 1, 2, vec![0, 1, 0], none(2)),
        make("a clue too few, and a bad clue", 1, 2, vec![0, 1], vec![-2]),
        make(
            "a clue too many, and a bad colour",
            1,
            2,
            vec![0, 2],
            none(3),
        ),
        make("colour 2", 2, 1, vec![0, 2], none(2)),
        make(
            "colour 255, and a bad clue",
            1,
            2,
            vec![255, 0],
            vec![-2, -1],
        ),
        make("clue -2", 1, 2, vec![0, 1], vec![-1, -2]),
        make("the least clue", 1, 2, vec![0, 1], vec![i32::MIN, -1]),
    ]
}

/// A page without clues but these, from its digits.
fn page(h: usize, w: usize, digits: &str, clues: &[(usize, i32)]) -> Puzzle {
    let colours = digits.bytes().map(|digit| i32::from(digit - b'0'));
    let mut puzzle = Puzzle::without_clues(h, w, colours.collect());
    for &(cell, clue) in clues {
        puzzle.clues[cell] = clue;
    }
    puzzle
}

/// Decides each literal, then checks.
fn decided(literals: &[Literal]) -> Vec<Call> {
    let mut calls: Vec<Call> = literals.iter().copied().map(Call::Decide).collect();
    calls.push(CHECK);
    calls
}

fn small_boards() -> Vec<Scenario> {
    let pair = |clue: i32| page(1, 2, "01", &[(0, clue)]);
    let mut calls = vec![CHECK];
    calls.extend(decided(&[(0, true)]));
    calls.push(Call::Undo);
    calls.extend(decided(&[(0, false)]));
    let opens: Vec<Literal> = vec![(0, false), (1, false), (2, false)];
    let wall = vec![(0, true), (1, false), (2, false)];
    let square = vec![(0, false), (2, false), (3, false), (1, true)];
    vec![
        scenario("1x1", page(1, 1, "0", &[]), vec![CHECK]),
        scenario("1x2, one colour", page(1, 2, "00", &[]), vec![CHECK]),
        scenario("1x2", page(1, 2, "01", &[]), calls),
        scenario("1x2, clue 1", pair(1), vec![CHECK]),
        scenario("1x2, clue 0", pair(0), vec![CHECK]),
        scenario("1x2, clue 2", pair(2), vec![CHECK]),
        scenario("1x2, the largest clue", pair(i32::MAX), vec![CHECK]),
        scenario("1x3", page(1, 3, "010", &[]), decided(&opens[..2])),
        scenario("1x4, open", page(1, 4, "0011", &[]), decided(&opens)),
        scenario("1x4, a wall", page(1, 4, "0011", &[]), decided(&wall)),
        scenario("2x2, a ring", page(2, 2, "0101", &[]), decided(&square)),
    ]
}

fn refused_calls() -> Vec<Scenario> {
    let calls = vec![
        Call::Undo,
        Call::Decide((7, true)),
        Call::Decide((65_536, false)),
        Call::Decide((2_147_483_647, true)),
        Call::Decide((6, true)),
        Call::Decide((6, true)),
        Call::Decide((6, false)),
        Call::Check(0),
        Call::Check(PLACES - 1),
        CHECK,
        Call::Check(PLACES + 1),
        Call::Undo,
        CHECK,
        Call::Undo,
        Call::Undo,
        Call::Decide((6, false)),
        CHECK,
    ];
    let bare = vec![Call::Undo, Call::Decide((0, false)), Call::Check(0), CHECK];
    vec![
        scenario("refused calls on 2x3", page(2, 3, "001011", &[]), calls),
        scenario("refused calls on 1x1", page(1, 1, "1", &[]), bare),
    ]
}

/// Pages of the greatest height and width.
fn large_pages() -> Vec<Scenario> {
    let stripes = |h: usize, w: usize| {
        let colours = (0..h * w).map(|cell| (cell % 2) as i32);
        Puzzle::without_clues(h, w, colours.collect())
    };
    let ends = |last: usize| {
        let mut calls = decided(&[(last, false), (last + 1, true), (0, true)]);
        calls.extend([Call::Undo, CHECK]);
        calls
    };
    vec![
        scenario("32x32", stripes(32, 32), ends(1983)),
        scenario("1x32", stripes(1, 32), ends(30)),
        scenario("32x1", stripes(32, 1), ends(30)),
    ]
}

/// A generated board with its hit.
type Found = (Board, Option<Hit>);

fn pool() -> Vec<Found> {
    let mut random = Random::new(51);
    let mut made = |_| {
        let board = generate::board(&mut random, 5, 5);
        let hit = plain::check(&board);
        (board, hit)
    };
    (0..12_000).map(&mut made).collect()
}

/// All literals of a board decided and checked, then the last one undone and checked again.
fn replayed(title: &str, board: &Board) -> Scenario {
    let mut calls = decided(&board.decided);
    calls.extend([Call::Undo, CHECK]);
    scenario(title, board.puzzle.clone(), calls)
}

/// The smallest board of a kind, and the first of the kind with a page and a reason of some size.
fn two_of(pool: &[Found], title: &str, wanted: impl Fn(&Found) -> bool) -> Vec<Scenario> {
    let all: Vec<&Found> = pool.iter().filter(|found| wanted(found)).collect();
    let size = |found: &&&Found| found.0.puzzle.cells() * 3 + found.0.decided.len();
    let smallest = all.iter().min_by_key(size).expect(title);
    let length = |found: &Found| found.1.as_ref().map_or(9, |hit| hit.reason().len());
    let large = |found: &&&Found| found.0.puzzle.cells() >= 12 && length(found) >= 4;
    let mut chosen = vec![replayed(title, &smallest.0)];
    if let Some(second) = all.iter().find(large) {
        chosen.push(replayed(&format!("{title}, larger"), &second.0));
    }
    chosen
}

fn of_branches(pool: &[Found]) -> Vec<Scenario> {
    let mut all = vec![];
    for branch in BRANCHES {
        let wanted = |found: &Found| found.1.as_ref().is_some_and(|hit| hit.branch == branch);
        all.extend(two_of(pool, &branch.to_string(), wanted));
    }
    let passes = |found: &Found| found.1.is_none() && found.0.decided.len() > 3;
    let full = |found: &Found| found.1.is_none() && found.0.undecided() == 0;
    all.extend(two_of(pool, "pass", passes));
    all.extend(two_of(pool, "solution", full));
    all
}

/// The rows of the transforms of the unit that failed.
fn failed_rows(found: &Found) -> Option<Vec<usize>> {
    let failed = found.1.as_ref()?.failed?;
    let view = View::new(&found.0);
    let shape = shapes::shape(&found.0.puzzle, &view.units.lists[failed.unit]);
    Some(shapes::listed_rows(&shape))
}

/// For each list of transforms a blocked unit that has it, so that the reason shows their order.
fn of_classes() -> Vec<Scenario> {
    let mut random = Random::new(52);
    let mut all = vec![];
    for (piece, list) in pieces::CLASSES.iter().zip(shapes::LISTS) {
        let (h, w) = if piece.len() == 8 { (4, 8) } else { (4, 5) };
        let least = list.len().min(4);
        let found = loop {
            let Some(board) = generate::unit_board(&mut random, h, w, piece) else {
                continue;
            };
            let hit = plain::check(&board);
            let blocked = |hit: &Hit| hit.failed.map_or(0, |failed| failed.blocked);
            let found = (board, hit);
            if found.1.as_ref().is_some_and(|hit| blocked(hit) >= least)
                && failed_rows(&found).as_deref() == Some(list)
            {
                break found;
            }
        };
        all.push(replayed(&format!("blocked, rows {list:?}"), &found.0));
    }
    all
}

/// Boards that tell apart the check from versions with a likely mistake.
fn of_mistakes(pool: &[Found]) -> Vec<Scenario> {
    let hit = |found: &Found| found.1.clone();
    let failed = |found: &Found| hit(found).and_then(|hit| hit.failed);
    let others = |found: &Found| {
        failed(found).is_some_and(|f| f.others > 0)
            && hit(found).is_some_and(|hit| hit.branch == Branch::Blocked)
    };
    let dropped = |found: &Found| failed(found).is_some_and(|f| f.dropped > 0 && f.blocked > 0);
    let repeats = |found: &Found| hit(found).is_some_and(|hit| hit.repeats());
    let loose = |found: &Found| failed(found).is_some_and(|f| loose_inside(&found.0, f.unit));
    let clued = |found: &Found, c: i32| {
        hit(found).is_some_and(|hit| hit.branch == Branch::High(c)) && joined_block(&found.0)
    };
    let mut all = two_of(pool, "walls to units that are not adjacent", others);
    all.extend(two_of(pool, "a wall read before leaving", dropped));
    all.extend(two_of(pool, "a literal struck", repeats));
    all.extend(two_of(pool, "an undecided border inside the unit", loose));
    for c in [0, 1] {
        let title = format!("clue above colour {c} in a block of several cells");
        all.extend(two_of(pool, &title, |found| clued(found, c)));
    }
    all.push(replayed("stairs", &bench::stairs(6)));
    all
}

/// Whether a border between two cells of a unit is undecided.
fn loose_inside(board: &Board, unit: usize) -> bool {
    let view = View::new(board);
    let shape = shapes::shape(&board.puzzle, &view.units.lists[unit]);
    view.inside(&view.units, unit).len() < shape.1.len()
}

/// Whether the block that step 1 hits has an open border.
fn joined_block(board: &Board) -> bool {
    let view = View::new(board);
    let hit = |block: &usize| view.step1_block(*block).is_some();
    let block = (0..view.blocks.lists.len()).find(hit);
    block.is_some_and(|block| !view.inside(&view.blocks, block).is_empty())
}

/// Lists of calls by chance, refused ones among them.
fn long_lists() -> Vec<Scenario> {
    let mut random = Random::new(53);
    let mut all = vec![];
    for (h, w) in [(2, 3), (3, 3), (3, 4)] {
        let cut = generate::solved_cut(&mut random, h, w - w * h % 2, 3);
        let puzzle = generate::part_of(&mut random, &cut, 0, 15).puzzle;
        let borders = puzzle.borders();
        let call = |_| a_call(&mut random, borders);
        let calls: Vec<Call> = (0..70).map(call).collect();
        all.push(scenario("calls by chance", puzzle, calls));
    }
    all
}

fn a_call(random: &mut Random, borders: usize) -> Call {
    match random.below(9) {
        0..=4 => Call::Decide((random.below(borders + 1), random.chance(50))),
        5 | 6 => Call::Undo,
        7 => Call::Check(random.between(PLACES - 1, PLACES)),
        _ => CHECK,
    }
}

/// Boards with two hits in one place, of which document 01 names the first.
fn of_orders() -> Vec<Scenario> {
    let opens = [0, 4, 2, 3, 6].map(|border| (border, false));
    let walls = [(5, true), (1, true)];
    let around: Vec<Literal> = opens.into_iter().chain(walls).collect();
    let above = vec![(0, false), (1, true)];
    vec![
        scenario(
            "a cell with two walls in its block",
            page(2, 3, "000000", &[]),
            decided(&around),
        ),
        scenario(
            "a clue above both potential units",
            page(1, 4, "0110", &[(0, 2)]),
            decided(&above),
        ),
    ]
}

/// Pages with a clue above half the cells: where a potential unit has so many cells, and where none
/// has.
fn of_drafts() -> Vec<Scenario> {
    let mut calls = vec![CHECK];
    calls.extend(decided(&[(1, true)]));
    calls.push(Call::Undo);
    calls.extend(decided(&[(0, true), (6, true)]));
    let most = page(2, 4, "00010011", &[(0, 5)]);
    let largest = page(2, 4, "00110011", &[(0, i32::MAX)]);
    let walls = decided(&[(0, true), (6, true)]);
    vec![
        scenario("a clue above half the cells", most, calls),
        scenario("the largest clue between walls", largest, walls),
    ]
}

/// Previews between other calls: they leave the literals that stand, and are refused with 6, then 7,
/// then 9.
fn of_previews() -> Vec<Scenario> {
    let preview = |border: usize, wall: bool| Call::Preview((border, wall), PLACES);
    let small = vec![
        preview(0, true),
        preview(0, false),
        CHECK,
        preview(1, true),
        Call::Preview((1, false), 0),
        Call::Preview((0, false), PLACES - 1),
        Call::Decide((0, false)),
        preview(0, true),
        Call::Preview((0, false), 0),
        CHECK,
        Call::Undo,
        preview(0, true),
    ];
    let mut calls = vec![];
    for border in [1, 2, 0, 6, 3] {
        calls.extend((0..7).flat_map(|other| [preview(other, true), preview(other, false)]));
        calls.push(Call::Decide((border, border % 2 == 1)));
    }
    calls.push(CHECK);
    vec![
        scenario("previews on 1x2", page(1, 2, "01", &[]), small),
        scenario("previews on 2x3", page(2, 3, "001011", &[(0, 3)]), calls),
    ]
}

/// Calls that are lent a tally record: one that disagrees is refused with 5, before 6 to 9.
fn of_records() -> Vec<Scenario> {
    let wall = Call::Decide((0, true));
    let preview = |border: usize, places: usize| Call::Preview((border, false), places);
    let lent = |call: Call, counts: [usize; 3]| Asked {
        call,
        record: Some(Tally::from(counts)),
    };
    let small = vec![
        lent(wall, [0, 1, 0]),
        lent(Call::Decide((9, true)), [1, 1, 0]),
        lent(Call::Undo, [1, 0, 1]),
        lent(Call::Undo, [1, 0, 0]),
        lent(Call::Check(0), [0, 0, 0]),
        lent(preview(0, 0), [2, 0, 0]),
        lent(preview(0, PLACES), [1, 0, 0]),
        lent(CHECK, [1, 0, 0]),
        lent(wall, [1, 0, 0]),
        lent(wall, [1, 0, 0]),
        lent(wall, [0, 1, 0]),
        lent(preview(9, 0), [0, 1, 0]),
        lent(CHECK, [0, 0, 1]),
        lent(CHECK, [0, 1, 0]),
        lent(Call::Undo, [65_536, 1, 0]),
        lent(Call::Undo, [0, 1, 0]),
        lent(Call::Decide((0, false)), [1, 0, 0]),
        CHECK.into(),
        lent(CHECK, [0, 0, 1]),
    ];
    let six = page(2, 3, "001011", &[]);
    let by_chance = recorded_calls(&six);
    vec![
        scenario("records on 1x2", page(1, 2, "01", &[]), small),
        scenario("records by chance on 2x3", six, by_chance),
    ]
}

/// The largest page with every border open and a clue that is too small: the reason names every border.
fn longest_reason() -> Vec<Scenario> {
    let mut board = bench::all_open(&Puzzle::without_clues(32, 32, vec![0; 1024]));
    board.puzzle.clues[0] = 1;
    let mut calls = decided(&board.decided);
    calls.push(Call::Check(PLACES - 1));
    vec![scenario("every border in the reason", board.puzzle, calls)]
}

/// Calls by chance beside a kept record. No check is needed to tell what it holds.
fn recorded_calls(puzzle: &Puzzle) -> Vec<Asked> {
    let mut random = Random::new(54);
    let mut book = Book::open(puzzle).expect("a page");
    let mut kept = Kept::new(book.tally());
    let mut asked = |_| {
        let call = match a_call(&mut random, puzzle.borders()) {
            Call::Decide(literal) if random.chance(30) => Call::Preview(literal, PLACES),
            call => call,
        };
        let record = kept.lend(&mut random, book.tally());
        let (_, now) = book.reply(Asked { call, record }, &mut |_, _| None);
        kept.take_back(record, now);
        Asked { call, record }
    };
    (0..70).map(&mut asked).collect()
}
