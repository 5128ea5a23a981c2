//! Document 01's section "Shapes": the eight rows and the listed transforms of a unit.

use crate::page::{Place, Puzzle, Transform};

/// Each row: whether y and x are swapped, then the sign of the new y and of the new x.
/// (y,x) (-y,-x) (-x,y) (x,-y) (-y,x) (y,-x) (x,y) (-x,-y)
pub const ROWS: [(bool, i32, i32); 8] = [
    (false, 1, 1),
    (false, -1, -1),
    (true, -1, 1),
    (true, 1, -1),
    (false, -1, 1),
    (false, 1, -1),
    (true, 1, 1),
    (true, -1, -1),
];

/// Every list of rows that a unit can have.
pub const LISTS: [&[usize]; 6] = [
    &[0, 1, 2, 3, 4, 5, 6, 7],
    &[0, 1, 2, 3],
    &[0, 3, 4, 7],
    &[0, 3],
    &[0, 4],
    &[0],
];

fn mapped(row: usize, places: &[Place]) -> Vec<Place> {
    let (swap, sy, sx) = ROWS[row];
    let map = |&(y, x): &Place| {
        if swap {
            (sy * x, sx * y)
        } else {
            (sy * y, sx * x)
        }
    };
    places.iter().map(map).collect()
}

/// Sorts the cells, moves the first to (0, 0) and the connections twice as far.
fn settled(mut cells: Vec<Place>, connections: Vec<Place>) -> Transform {
    cells.sort();
    let (y0, x0) = cells[0];
    (
        cells.iter().map(|&(y, x)| (y - y0, x - x0)).collect(),
        connections
            .iter()
            .map(|&(y, x)| (y - 2 * y0, x - 2 * x0))
            .collect(),
    )
}

/// The shape of a group of cells: `cells` are numbers on the page, in row order.
pub fn shape(puzzle: &Puzzle, cells: &[usize]) -> Transform {
    let place = |cell: usize| ((cell / puzzle.w) as i32, (cell % puzzle.w) as i32);
    let mut connections = vec![];
    for &cell in cells {
        for (_, other) in puzzle.ahead(cell) {
            if cells.contains(&other) {
                let ((y, x), (v, u)) = (place(cell), place(other));
                connections.push((y + v, x + u));
            }
        }
    }
    settled(cells.iter().map(|&cell| place(cell)).collect(), connections)
}

pub fn image(row: usize, shape: &Transform) -> Transform {
    settled(mapped(row, &shape.0), mapped(row, &shape.1))
}

/// The rows of a shape's listed transforms, in 01's order.
pub fn listed_rows(shape: &Transform) -> Vec<usize> {
    let cells = |row: usize| image(row, shape).0;
    let mut rows = vec![0];
    if cells(1) != shape.0 {
        rows.push(1);
    }
    if cells(3) != shape.0 {
        if rows.len() == 2 {
            rows.push(2);
        }
        rows.push(3);
    }
    let flip = cells(4);
    if rows.iter().all(|&row| cells(row) != flip) {
        for i in 0..rows.len() {
            rows.push(rows[i] + 4);
        }
    }
    rows
}

pub fn transforms(shape: &Transform) -> Vec<Transform> {
    listed_rows(shape)
        .into_iter()
        .map(|row| image(row, shape))
        .collect()
}
