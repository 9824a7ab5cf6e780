//! Where random places lie: distinct cells in shapes that strain the codes and the crow distances.

use crate::inputs::rng::Rng;
use crate::rules::limits::GRID_SIDE;
use crate::rules::sheet::Cell;

#[derive(Clone, Copy, PartialEq)]
pub enum Shape {
    Spread,
    Clusters,
    Row,
    Column,
    Diagonal,
    Patch,
    Corners,
}

pub const SHAPES: [Shape; 7] = [
    Shape::Spread,
    Shape::Clusters,
    Shape::Row,
    Shape::Column,
    Shape::Diagonal,
    Shape::Patch,
    Shape::Corners,
];

const EDGE: u32 = GRID_SIDE - 1;

/// So many cells in rows, row by row, each anywhere in a square of its own; and how many a row has.
pub fn in_rows(rng: &mut Rng, count: usize) -> (Vec<Cell>, usize) {
    let side = (1..).find(|side| side * side >= count).expect("a side");
    let step = GRID_SIDE / side as u32;
    let cells = (0..count).map(|u| {
        let (across, down) = ((u % side) as u32 * step, (u / side) as u32 * step);
        Cell::at(across + rng.between(0, step - 1), down + rng.between(0, step - 1))
    });
    (cells.collect(), side)
}

/// So many cells of this shape; a shape that runs out of cells is filled up from the whole grid.
pub fn cells(rng: &mut Rng, shape: Shape, count: usize) -> Vec<Cell> {
    let anchor = anywhere(rng);
    let mut cells: Vec<Cell> = Vec::new();
    let mut tries = 0;
    while cells.len() < count {
        tries += 1;
        let next = if tries < 20 * count { one(rng, shape, anchor, cells.len()) } else { anywhere(rng) };
        if !cells.contains(&next) {
            cells.push(next);
        }
    }
    cells
}

fn anywhere(rng: &mut Rng) -> Cell {
    Cell::at(rng.between(0, EDGE), rng.between(0, EDGE))
}

fn one(rng: &mut Rng, shape: Shape, anchor: Cell, made: usize) -> Cell {
    match shape {
        Shape::Spread => anywhere(rng),
        Shape::Clusters => {
            let turn = (made as u32 % 3) * 300;
            near(rng, Cell::at((anchor.x + turn) % GRID_SIDE, (anchor.y + 2 * turn) % GRID_SIDE), 12)
        }
        Shape::Row => Cell::at(rng.between(0, EDGE), anchor.y),
        Shape::Column => Cell::at(anchor.x, rng.between(0, EDGE)),
        Shape::Diagonal => {
            let step = rng.between(0, EDGE);
            Cell::at(step, step)
        }
        Shape::Patch => near(rng, anchor, 4),
        Shape::Corners => corner(rng, made),
    }
}

fn near(rng: &mut Rng, centre: Cell, reach: u32) -> Cell {
    let x = (centre.x + rng.between(0, reach)).min(EDGE);
    let y = (centre.y + rng.between(0, reach)).min(EDGE);
    Cell::at(x, y)
}

fn corner(rng: &mut Rng, made: usize) -> Cell {
    let ends = [0, EDGE];
    if made < 4 {
        return Cell::at(ends[made % 2], ends[made / 2]);
    }
    // Cells about the corners and about the middle, where codes change most between neighbours.
    let sides = [0, 1, EDGE - 1, EDGE, GRID_SIDE / 2 - 1, GRID_SIDE / 2];
    Cell::at(rng.pick(&sides), rng.pick(&sides))
}
