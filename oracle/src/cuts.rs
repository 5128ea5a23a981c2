//! Pages cut into blocks, from a seed.

use crate::page::Puzzle;
use crate::pieces;
use crate::random::Random;

/// A page cut into blocks.
#[derive(Clone, Debug)]
pub struct Cut {
    pub puzzle: Puzzle,
    /// The full setting of the cut: wall between blocks, open within them.
    pub walls: Vec<bool>,
    /// The size of each cell's unit; 0 for a cell that was left over.
    pub sizes: Vec<usize>,
    /// Whether every block is a pair of congruent pieces.
    pub solved: bool,
}

struct Cutting {
    puzzle: Puzzle,
    free: Vec<bool>,
    blocks: Vec<usize>,
    sizes: Vec<usize>,
    count: usize,
}

impl Cutting {
    fn new(h: usize, w: usize) -> Cutting {
        let cells = h * w;
        Cutting {
            puzzle: Puzzle::without_clues(h, w, vec![0; cells]),
            free: vec![true; cells],
            blocks: vec![0; cells],
            sizes: vec![0; cells],
            count: 0,
        }
    }

    /// Makes one block of two pieces, the first in this colour.
    fn join(&mut self, one: &[usize], other: &[usize], colour: i32) {
        for (cells, colour) in [(one, colour), (other, 1 - colour)] {
            for &cell in cells {
                self.free[cell] = false;
                self.blocks[cell] = self.count;
                self.sizes[cell] = cells.len();
                self.puzzle.colours[cell] = colour;
            }
        }
        self.count += 1;
    }

    /// Cells that no pair took become blocks of their own, in either colour.
    fn finish(mut self, random: &mut Random, mut solved: bool) -> Cut {
        for cell in 0..self.puzzle.cells() {
            if self.free[cell] {
                self.blocks[cell] = self.count;
                self.count += 1;
                self.puzzle.colours[cell] = random.below(2) as i32;
                solved = false;
            }
        }
        let apart = |border: usize| {
            let (a, b) = self.puzzle.ends(border);
            self.blocks[a] != self.blocks[b]
        };
        Cut {
            walls: (0..self.puzzle.borders()).map(apart).collect(),
            puzzle: self.puzzle,
            sizes: self.sizes,
            solved,
        }
    }
}

/// The free cell with the fewest free neighbours; ties by chance.
fn tightest(random: &mut Random, cutting: &Cutting) -> Option<usize> {
    let free = |&(_, other): &(usize, usize)| cutting.free[other];
    let ways = |cell: usize| {
        cutting
            .puzzle
            .around(cell)
            .iter()
            .filter(|hop| free(hop))
            .count()
    };
    let open: Vec<usize> = (0..cutting.free.len())
        .filter(|&cell| cutting.free[cell])
        .collect();
    let least = open
        .iter()
        .map(|&cell| ways(cell))
        .filter(|&n| n > 0)
        .min()?;
    let tied: Vec<usize> = open.into_iter().filter(|&c| ways(c) == least).collect();
    Some(*random.pick(&tied))
}

/// Pairs of grown pieces of at most `largest` cells until no two free cells are neighbours. Where
/// `even` is false the second piece is only as large as the first and seldom congruent.
pub fn grown_cut(random: &mut Random, h: usize, w: usize, largest: usize, even: bool) -> Cut {
    let mut cutting = Cutting::new(h, w);
    while let Some(start) = tightest(random, &cutting) {
        let mut size = random.between(1, largest);
        loop {
            let (puzzle, free) = (&cutting.puzzle, &cutting.free);
            let one = pieces::grown(random, puzzle, free, start, size);
            let other = if even {
                pieces::copied(random, puzzle, free, &one)
            } else {
                equal_sized(random, puzzle, free, &one)
            };
            if let Some(other) = other {
                let colour = random.below(2) as i32;
                cutting.join(&one, &other, colour);
                break;
            }
            size = (one.len() - 1).max(1);
        }
    }
    cutting.finish(random, even)
}

fn equal_sized(
    random: &mut Random,
    puzzle: &Puzzle,
    free: &[bool],
    one: &[usize],
) -> Option<Vec<usize>> {
    let mut left = free.to_vec();
    for &cell in one {
        left[cell] = false;
    }
    let beside = pieces::fringe(puzzle, &left, one);
    if beside.is_empty() {
        return None;
    }
    let start = *random.pick(&beside);
    let other = pieces::grown(random, puzzle, &left, start, one.len());
    (other.len() == one.len()).then_some(other)
}

/// A rectangle of the page: top, left, height, width.
type Area = (usize, usize, usize, usize);

/// The page split into rectangles of even area, each cut in two by a line that a half turn keeps.
/// Every page of even area gets a solution.
pub fn halved_cut(random: &mut Random, h: usize, w: usize, largest: usize) -> Cut {
    let mut cutting = Cutting::new(h, w);
    let mut areas = vec![(0, 0, h, w)];
    while let Some(area) = areas.pop() {
        match split(random, area, largest) {
            Some((one, other)) => areas.extend([one, other]),
            None if area.2 * area.3 % 2 == 1 => {}
            None => {
                let (one, other) = halves(random, w, area);
                let colour = random.below(2) as i32;
                cutting.join(&one, &other, colour);
            }
        }
    }
    cutting.finish(random, true)
}

/// A large rectangle in two, both of even area if this one is.
fn split(random: &mut Random, area: Area, largest: usize) -> Option<(Area, Area)> {
    let (y, x, h, w) = area;
    if h * w <= 2 * largest && (h * w) % 2 == 0 || h * w == 1 {
        return None;
    }
    let down = if h == 1 {
        false
    } else {
        w == 1 || random.chance(100 * h / (h + w))
    };
    let (long, short) = if down { (h, w) } else { (w, h) };
    let mut at = random.between(1, long - 1);
    if short % 2 == 1 && at % 2 == 1 {
        at = if at + 1 < long { at + 1 } else { at - 1 };
    }
    if at == 0 {
        return None;
    }
    Some(if down {
        ((y, x, at, w), (y + at, x, h - at, w))
    } else {
        ((y, x, h, at), (y, x + at, h, w - at))
    })
}

/// The two halves of a rectangle of even area.
fn halves(random: &mut Random, page_width: usize, area: Area) -> (Vec<usize>, Vec<usize>) {
    let (top, left, h, w) = area;
    // Lines run along the even side where the other is odd.
    let rows_down = w > 1 && (h % 2 == 0 || w % 2 == 0) && (h == 1 || random.chance(50));
    let (lines, length) = if rows_down { (h, w) } else { (w, h) };
    let mut ends = vec![0; lines];
    for i in 0..lines.div_ceil(2) {
        let middle = 2 * i + 1 == lines;
        ends[i] = if middle || random.chance(30) {
            length / 2
        } else {
            random.between(1, length - 1)
        };
        ends[lines - 1 - i] = length - ends[i];
    }
    let (mut one, mut other) = (vec![], vec![]);
    for (i, &end) in ends.iter().enumerate() {
        for j in 0..length {
            let (y, x) = if rows_down { (i, j) } else { (j, i) };
            let cell = (top + y) * page_width + left + x;
            if j < end {
                one.push(cell);
            } else {
                other.push(cell);
            }
        }
    }
    (one, other)
}

/// A cut of any kind.
pub fn cut(random: &mut Random, h: usize, w: usize) -> Cut {
    let largest = random.between(1, (h * w / 4).clamp(1, 12));
    match random.below(4) {
        0 => halved_cut(random, h, w, largest),
        1 => grown_cut(random, h, w, largest, false),
        _ => grown_cut(random, h, w, largest, true),
    }
}

/// A solved page with its solution; the area is even.
pub fn solved_cut(random: &mut Random, h: usize, w: usize, largest: usize) -> Cut {
    for _ in 0..4 {
        let cut = grown_cut(random, h, w, largest, true);
        if cut.solved {
            return cut;
        }
    }
    halved_cut(random, h, w, largest)
}
