//! Document 01's sections "Groups", "Reasons" and "Check", written plainly from the document, and
//! document 02's "Each literal once". It names the branch that hit, which the published code does not;
//! tests hold its answers against the published ones.

pub use crate::branch::{Branch, BRANCHES};
use crate::page::{Board, Groups, Kind, Literal, Puzzle, State};
use crate::shapes;
use std::collections::{BTreeSet, VecDeque};

#[derive(Clone, Debug, PartialEq, Eq)]
pub struct Hit {
    pub branch: Branch,
    /// 01's list: a literal may stand in it more than once.
    pub listed: Vec<Literal>,
    /// More about a hit of step 3.
    pub failed: Option<Failed>,
}

impl Hit {
    /// The literals of the list in the order in which they first came, each once.
    pub fn reason(&self) -> Vec<Literal> {
        let mut reason = vec![];
        for literal in &self.listed {
            if !reason.contains(literal) {
                reason.push(*literal);
            }
        }
        reason
    }

    /// Whether a literal stands in the list more than once.
    pub fn repeats(&self) -> bool {
        self.reason().len() < self.listed.len()
    }
}

/// The unit for which no placement fits.
#[derive(Clone, Copy, Debug, PartialEq, Eq)]
pub struct Failed {
    pub unit: usize,
    /// Placements with a blocker.
    pub blocked: usize,
    /// Placements that read a wall and then cannot lie there.
    pub dropped: usize,
    /// Walls to other-coloured cells whose potential unit is not adjacent.
    pub others: usize,
}

/// What a placement answers.
enum Placement {
    Fits,
    BlockedBy(usize),
    CannotLie { after_wall: bool },
}

/// A board with its groups.
pub struct View<'a> {
    puzzle: &'a Puzzle,
    states: Vec<State>,
    pub blocks: Groups,
    pub units: Groups,
    pub potential: Groups,
}

/// The first hit of Check, or none for a pass.
pub fn check(board: &Board) -> Option<Hit> {
    let view = View::new(board);
    view.step1()
        .or_else(|| view.step2())
        .or_else(|| view.step3())
}

/// The reason of the first hit on a puzzle with just these literals decided, or none for a pass.
pub fn reason(puzzle: &Puzzle, decided: &[Literal]) -> Option<Vec<Literal>> {
    let board = Board {
        puzzle: puzzle.clone(),
        decided: decided.to_vec(),
    };
    check(&board).map(|hit| hit.reason())
}

/// Groups numbered by first cell; `joins` says of a border with its cells whether it joins them.
fn groups(puzzle: &Puzzle, joins: impl Fn(usize, usize, usize) -> bool) -> Groups {
    let mut ids = vec![usize::MAX; puzzle.cells()];
    let mut lists: Vec<Vec<usize>> = vec![];
    for start in 0..puzzle.cells() {
        if ids[start] != usize::MAX {
            continue;
        }
        let id = lists.len();
        ids[start] = id;
        let mut list = vec![start];
        let mut next = 0;
        while next < list.len() {
            let cell = list[next];
            next += 1;
            for (border, other) in puzzle.around(cell) {
                if ids[other] == usize::MAX && joins(border, cell, other) {
                    ids[other] = id;
                    list.push(other);
                }
            }
        }
        list.sort();
        lists.push(list);
    }
    Groups { ids, lists }
}

impl<'a> View<'a> {
    pub fn new(board: &'a Board) -> View<'a> {
        let puzzle = &board.puzzle;
        let states = board.states();
        let same = |a: usize, b: usize| puzzle.colours[a] == puzzle.colours[b];
        View {
            blocks: groups(puzzle, |border, _, _| states[border] == State::Open),
            units: groups(puzzle, |border, a, b| {
                states[border] == State::Open && same(a, b)
            }),
            potential: groups(puzzle, |border, a, b| {
                states[border] != State::Wall && same(a, b)
            }),
            puzzle,
            states,
        }
    }

    pub fn groups(&self, kind: Kind) -> &Groups {
        match kind {
            Kind::Blocks => &self.blocks,
            Kind::Units => &self.units,
            Kind::Potential => &self.potential,
        }
    }

    fn colour(&self, cell: usize) -> i32 {
        self.puzzle.colours[cell]
    }

    pub fn inside(&self, groups: &Groups, id: usize) -> Vec<Literal> {
        let mut reason = vec![];
        for &cell in &groups.lists[id] {
            for (border, other) in self.puzzle.ahead(cell) {
                if groups.ids[other] == id && self.states[border] == State::Open {
                    reason.push((border, false));
                }
            }
        }
        reason
    }

    pub fn edge(&self, id: usize) -> Vec<Literal> {
        let mut reason = vec![];
        for &cell in &self.potential.lists[id] {
            for (border, other) in self.puzzle.around(cell) {
                if self.potential.ids[other] != id
                    && self.colour(other) == self.colour(cell)
                    && self.states[border] == State::Wall
                {
                    reason.push((border, true));
                }
            }
        }
        reason
    }

    /// Path(a, b); no literals if b is not reached.
    pub fn path(&self, a: usize, b: usize) -> Vec<Literal> {
        let mut finder: Vec<Option<(usize, usize)>> = vec![None; self.puzzle.cells()];
        let mut queue = VecDeque::from([a]);
        while let Some(cell) = queue.pop_front() {
            for (border, other) in self.puzzle.around(cell) {
                if self.states[border] == State::Open && other != a && finder[other].is_none() {
                    finder[other] = Some((border, cell));
                    queue.push_back(other);
                }
            }
        }
        let mut reason = vec![];
        let mut at = b;
        while let Some((border, from)) = finder[at] {
            reason.push((border, false));
            at = from;
        }
        reason
    }

    fn step1(&self) -> Option<Hit> {
        (0..self.blocks.lists.len()).find_map(|block| self.step1_block(block))
    }

    /// The hit of step 1 on one block.
    pub fn step1_block(&self, block: usize) -> Option<Hit> {
        let cells = &self.blocks.lists[block];
        self.step1_cells(block, cells)
            .or_else(|| self.step1_sizes(block, cells))
            .or_else(|| self.step1_clue(block, cells))
    }

    fn step1_cells(&self, block: usize, cells: &[usize]) -> Option<Hit> {
        for (i, &cell) in cells.iter().enumerate() {
            let earlier = &cells[..i];
            let own = self.potential.ids[cell];
            if earlier
                .iter()
                .any(|&e| self.colour(e) == self.colour(cell) && self.potential.ids[e] != own)
            {
                return self.hit(Branch::Parted, &[self.inside_block(block), self.edge(own)]);
            }
            let clue = self.puzzle.clues[cell];
            let differs = |&e: &usize| self.puzzle.clues[e] != -1 && self.puzzle.clues[e] != clue;
            if clue != -1 && earlier.iter().any(differs) {
                return self.hit(Branch::Clues, &[self.inside_block(block)]);
            }
        }
        None
    }

    fn step1_sizes(&self, block: usize, cells: &[usize]) -> Option<Hit> {
        for c in [0, 1] {
            if let Some(own) = self.unit_of_colour(cells, c) {
                if self.potential.lists[own].len() < self.count(cells, 1 - c) {
                    let parts = [self.inside_block(block), self.edge(own)];
                    return self.hit(Branch::Smaller(c), &parts);
                }
            }
        }
        None
    }

    fn step1_clue(&self, block: usize, cells: &[usize]) -> Option<Hit> {
        let with_clue = |&&cell: &&usize| self.puzzle.clues[cell] != -1;
        let clue = self.puzzle.clues[*cells.iter().find(with_clue)?] as usize;
        if clue < self.count(cells, 0) || clue < self.count(cells, 1) {
            return self.hit(Branch::Low, &[self.inside_block(block)]);
        }
        for c in [0, 1] {
            let Some(own) = self.unit_of_colour(cells, c) else {
                continue;
            };
            if clue > self.potential.lists[own].len() {
                let clued = |&cell: &usize| self.colour(cell) == c && with_clue(&&cell);
                return if cells.iter().any(clued) {
                    self.hit(Branch::High(c), &[self.edge(own)])
                } else {
                    let parts = [self.edge(own), self.inside_block(block)];
                    self.hit(Branch::HighElsewhere(c), &parts)
                };
            }
        }
        None
    }

    fn step2(&self) -> Option<Hit> {
        for cell in 0..self.puzzle.cells() {
            for (border, other) in self.puzzle.ahead(cell) {
                if self.states[border] == State::Wall
                    && self.blocks.ids[cell] == self.blocks.ids[other]
                {
                    let below = other == cell + self.puzzle.w;
                    let branch = if below {
                        Branch::WallBelow
                    } else {
                        Branch::WallRight
                    };
                    return self.hit(branch, &[self.path(cell, other), vec![(border, true)]]);
                }
            }
        }
        None
    }

    fn step3(&self) -> Option<Hit> {
        (0..self.units.lists.len()).find_map(|unit| self.step3_unit(unit))
    }

    fn step3_unit(&self, unit: usize) -> Option<Hit> {
        let own = self.potential.ids[self.units.lists[unit][0]];
        let adjacent = self.adjacent(own);
        let (blockers, dropped) = self.search(unit, &adjacent)?;
        let others = self.walls_to_others(own, &adjacent);
        let failed = Failed {
            unit,
            blocked: blockers.len(),
            dropped,
            others: others.len(),
        };
        let branch = match (adjacent.is_empty(), blockers.is_empty()) {
            (true, _) => Branch::Alone,
            (_, true) => Branch::NoPlace,
            _ => Branch::Blocked,
        };
        let mut parts = vec![blockers, self.inside(&self.units, unit), self.edge(own)];
        parts.extend(adjacent.iter().map(|&other| self.edge(other)));
        parts.push(others);
        Some(Hit {
            branch,
            listed: parts.concat(),
            failed: Some(failed),
        })
    }

    /// The potential units adjacent to one, by number.
    fn adjacent(&self, own: usize) -> Vec<usize> {
        let mut found = BTreeSet::new();
        for &cell in &self.potential.lists[own] {
            for (border, other) in self.puzzle.around(cell) {
                if self.colour(other) != self.colour(cell) && self.states[border] != State::Wall {
                    found.insert(self.potential.ids[other]);
                }
            }
        }
        found.into_iter().collect()
    }

    /// The blockers in order and the count of dropped ones, or none if some placement fits.
    fn search(&self, unit: usize, adjacent: &[usize]) -> Option<(Vec<Literal>, usize)> {
        let shape = shapes::shape(self.puzzle, &self.units.lists[unit]);
        let mut blockers = vec![];
        let mut dropped = 0;
        for (_, connections) in shapes::transforms(&shape) {
            for &other in adjacent {
                for &origin in &self.potential.lists[other] {
                    match self.placement(&connections, origin) {
                        Placement::Fits => return None,
                        Placement::BlockedBy(border) => blockers.push((border, true)),
                        Placement::CannotLie { after_wall } => dropped += usize::from(after_wall),
                    }
                }
            }
        }
        Some((blockers, dropped))
    }

    fn placement(&self, connections: &[(i32, i32)], origin: usize) -> Placement {
        let (h, w) = (self.puzzle.h as i32, self.puzzle.w as i32);
        let (oy, ox) = (origin as i32 / w, origin as i32 % w);
        let mut answer = Placement::Fits;
        let cannot_lie = |answer: Placement| Placement::CannotLie {
            after_wall: matches!(answer, Placement::BlockedBy(_)),
        };
        for &(dy, dx) in connections {
            let (y, x) = (2 * oy + dy, 2 * ox + dx);
            if y < 0 || y > 2 * (h - 1) || x < 0 || x > 2 * (w - 1) {
                return cannot_lie(answer);
            }
            let first = (y / 2 * w + x / 2) as usize;
            let second = ((y + 1) / 2 * w + (x + 1) / 2) as usize;
            if self.colour(first) != self.colour(second) {
                return cannot_lie(answer);
            }
            let (cy, cx) = ((y / 2) as usize, (x / 2) as usize);
            let border = if y % 2 == 1 {
                self.puzzle.below(cy, cx)
            } else {
                self.puzzle.right(cy, cx)
            };
            if self.states[border] == State::Wall {
                answer = Placement::BlockedBy(border);
            }
        }
        answer
    }

    /// Walls between a potential unit and other-coloured cells whose potential unit is not
    /// adjacent.
    fn walls_to_others(&self, own: usize, adjacent: &[usize]) -> Vec<Literal> {
        let mut reason = vec![];
        for &cell in &self.potential.lists[own] {
            for (border, other) in self.puzzle.around(cell) {
                if self.states[border] == State::Wall
                    && self.colour(other) != self.colour(cell)
                    && !adjacent.contains(&self.potential.ids[other])
                {
                    reason.push((border, true));
                }
            }
        }
        reason
    }

    fn inside_block(&self, block: usize) -> Vec<Literal> {
        self.inside(&self.blocks, block)
    }

    fn count(&self, cells: &[usize], c: i32) -> usize {
        cells.iter().filter(|&&cell| self.colour(cell) == c).count()
    }

    /// The potential unit of a block's first cell of colour c.
    fn unit_of_colour(&self, cells: &[usize], c: i32) -> Option<usize> {
        let cell = cells.iter().find(|&&cell| self.colour(cell) == c)?;
        Some(self.potential.ids[*cell])
    }

    fn hit(&self, branch: Branch, parts: &[Vec<Literal>]) -> Option<Hit> {
        Some(Hit {
            branch,
            listed: parts.concat(),
            failed: None,
        })
    }
}
