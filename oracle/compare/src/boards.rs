//! The boards that are compared, and named 32x32 boards for the bench.

use oracle::bench::{self, Named};
use oracle::generate;
use oracle::page::{Board, Literal, Puzzle};
use oracle::random::Random;

/// How many boards of each size: the environment variable BOARDS, or 3.
pub fn rounds() -> usize {
    let word = std::env::var("BOARDS").unwrap_or_default();
    word.parse().unwrap_or(3)
}

/// The boards of `each_of`, as often as `rounds` says.
pub fn each(seed: u64, test: impl FnMut(&mut Random, &Board)) -> usize {
    each_of(seed, rounds(), test)
}

/// Calls the test on a board of every size from 1x1 to 32x32 so many times, on as many small boards,
/// and on the bench boards. Gives their number.
pub fn each_of(seed: u64, rounds: usize, mut test: impl FnMut(&mut Random, &Board)) -> usize {
    let mut random = Random::new(seed);
    let mut count = 0;
    let mut judge = |random: &mut Random, board: &Board| {
        count += 1;
        test(random, board);
    };
    for round in 0..rounds {
        for h in 1..=32 {
            for w in 1..=32 {
                let board = sized(&mut random, h, w, round + h + w);
                judge(&mut random, &board);
                let small = generate::board(&mut random, 8, 8);
                judge(&mut random, &small);
            }
        }
    }
    for named in bench::boards().into_iter().chain(named()) {
        judge(&mut random, &named.board);
    }
    count
}

/// A board of this size; the kinds take turns.
fn sized(random: &mut Random, h: usize, w: usize, turn: usize) -> Board {
    if h * w <= 256 && turn % 2 == 0 {
        return generate::cut_board(random, h, w);
    }
    match turn % 3 {
        0 => opened(random, h, w),
        _ => generate::noise(random, h, w),
    }
}

/// Most borders open, in one colour or two: large groups and long paths.
pub fn opened(random: &mut Random, h: usize, w: usize) -> Board {
    let puzzle = Puzzle::without_clues(h, w, generate::colours(random, h, w));
    let opens = *random.pick(&[55, 70, 85, 100]);
    let walls = *random.pick(&[0, 100 - opens]);
    let decided = generate::scatter(random, puzzle.borders(), walls, opens);
    Board { puzzle, decided }
}

// ---- for lists of calls ----

/// A page and literals of a cut of it, which a list of calls mostly decides.
pub fn page(random: &mut Random, round: usize) -> (Puzzle, Vec<Literal>) {
    let side = if round % 10 == 0 { 32 } else { 7 };
    let (h, w) = (random.between(1, side), random.between(1, side));
    let cut = generate::cut(random, h, w);
    let board = generate::part_of(random, &cut, 100, 20);
    (board.puzzle, board.decided)
}

/// A literal of the page's cut, of any border, or of a border that the page has not.
pub fn a_literal(random: &mut Random, borders: usize, literals: &[Literal]) -> Literal {
    match random.below(10) {
        0 => {
            let beyond = [borders, borders + 1, 1_984, 65_536, usize::MAX / 2];
            (*random.pick(&beyond), random.chance(50))
        }
        1..=3 => (random.below(borders + 1), random.chance(50)),
        _ if literals.is_empty() => (0, random.chance(50)),
        4..=6 => {
            let &(border, wall) = random.pick(literals);
            (border, !wall)
        }
        _ => *random.pick(literals),
    }
}

// ---- named boards of 32x32 ----

const N: usize = 32;

/// A board of one colour on which the borders along a line of cells are open and all others wall.
fn lined(lines: &[Vec<usize>]) -> Board {
    let puzzle = Puzzle::without_clues(N, N, vec![0; N * N]);
    let mut open = vec![false; puzzle.borders()];
    for line in lines {
        for pair in line.windows(2) {
            let (a, b) = (pair[0].min(pair[1]), pair[0].max(pair[1]));
            let border = (0..puzzle.borders()).find(|&border| puzzle.ends(border) == (a, b));
            open[border.expect("neighbours")] = true;
        }
    }
    let decided = open.iter().map(|&open| !open).enumerate().collect();
    Board { puzzle, decided }
}

/// The cells of column x, downwards or upwards.
fn column(x: usize, down: bool) -> Vec<usize> {
    let cells = (0..N).map(|y| y * N + x);
    if down {
        cells.collect()
    } else {
        cells.rev().collect()
    }
}

/// Columns that hang together in the last row alone.
fn comb() -> Board {
    let mut lines: Vec<Vec<usize>> = (0..N).map(|x| column(x, true)).collect();
    lines.push((N * (N - 1)..N * N).collect());
    lined(&lines)
}

/// Down one column and up the next.
fn snake_by_columns() -> Board {
    lined(&[(0..N).flat_map(|x| column(x, x % 2 == 0)).collect()])
}

fn spiral() -> Board {
    let (mut top, mut left, mut bottom, mut right) = (0, 0, N - 1, N - 1);
    let mut line = vec![];
    while top < bottom {
        line.extend((left..right).map(|x| top * N + x));
        line.extend((top..bottom).map(|y| y * N + right));
        line.extend((left + 1..=right).rev().map(|x| bottom * N + x));
        line.extend((top + 1..=bottom).rev().map(|y| y * N + left));
        (top, left, bottom, right) = (top + 1, left + 1, bottom - 1, right - 1);
        // The ring's last cell stands below its first; the next ring starts at its right.
    }
    lined(&[line])
}

/// Random colours, and each border wall or open by these chances.
fn chances(walls: usize, opens: usize) -> Board {
    let mut random = Random::new(31);
    let colours = (0..N * N).map(|_| random.below(2) as i32).collect();
    let puzzle = Puzzle::without_clues(N, N, colours);
    let decided = generate::scatter(&mut random, puzzle.borders(), walls, opens);
    Board { puzzle, decided }
}

/// Named boards that are hard or easy for a grouping.
pub fn named() -> Vec<Named> {
    let list = [
        ("undecided", chances(0, 0)),
        ("60 % open", chances(0, 60)),
        ("mixed", chances(33, 33)),
        ("all walls", chances(100, 0)),
        ("comb", comb()),
        ("snake by columns", snake_by_columns()),
        ("spiral", spiral()),
    ];
    let named = |(name, board)| Named {
        name: format!("32x32 {name}"),
        board,
    };
    list.into_iter().map(named).collect()
}
