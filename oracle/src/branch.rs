//! The branches of document 01's Check, each with its name.

/// Where a check hit.
#[derive(Clone, Copy, Debug, PartialEq, Eq, PartialOrd, Ord)]
pub enum Branch {
    /// Step 1 (a): a block has two potential units of one colour.
    Parted,
    /// Step 1 (b): two clues of a block differ.
    Clues,
    /// Step 1: the potential unit of this colour is smaller than the count of the other colour.
    Smaller(i32),
    /// Step 1: the clue is below a count.
    Low,
    /// Step 1: the clue is above the size of the potential unit of this colour; a cell of this
    /// colour in the block has it.
    High(i32),
    /// The same where this colour has no clue in the block.
    HighElsewhere(i32),
    /// Step 2: a wall below a cell.
    WallBelow,
    /// Step 2: a wall right of a cell.
    WallRight,
    /// Step 3: no adjacent unit.
    Alone,
    /// Step 3: every placement leaves the page or its colour.
    NoPlace,
    /// Step 3: some placement is blocked.
    Blocked,
}

/// Every branch.
pub const BRANCHES: [Branch; 14] = [
    Branch::Parted,
    Branch::Clues,
    Branch::Smaller(0),
    Branch::Smaller(1),
    Branch::Low,
    Branch::High(0),
    Branch::High(1),
    Branch::HighElsewhere(0),
    Branch::HighElsewhere(1),
    Branch::WallBelow,
    Branch::WallRight,
    Branch::Alone,
    Branch::NoPlace,
    Branch::Blocked,
];

impl std::fmt::Display for Branch {
    fn fmt(&self, to: &mut std::fmt::Formatter) -> std::fmt::Result {
        match self {
            Branch::Parted => write!(to, "step 1 (a)"),
            Branch::Clues => write!(to, "step 1 (b)"),
            Branch::Smaller(c) => write!(to, "step 1, potential unit of colour {c} too small"),
            Branch::Low => write!(to, "step 1, clue below a count"),
            Branch::High(c) => write!(to, "step 1, clue above colour {c}, clue there"),
            Branch::HighElsewhere(c) => write!(to, "step 1, clue above colour {c}, clue elsewhere"),
            Branch::WallBelow => write!(to, "step 2, wall below"),
            Branch::WallRight => write!(to, "step 2, wall right"),
            Branch::Alone => write!(to, "step 3, no adjacent unit"),
            Branch::NoPlace => write!(to, "step 3, no blocker"),
            Branch::Blocked => write!(to, "step 3, blockers"),
        }
    }
}
