//! The maps of the longest walks: where their places lie, and one loop post of the longest stages. Each place has one
//! block, which covers every cell.

use crate::inputs::draw::places::{cells, Shape};
use crate::inputs::marked::{block, stage};
use crate::inputs::rng::Rng;
use crate::rules::limits::{GRID_SIDE, LENGTHS, TOP_LEVEL};
use crate::rules::sheet::{Cell, Place, Sheet};

const EDGE: u32 = GRID_SIDE - 1;
const CROWD_SIDE: u32 = 32;

/// Opposite corners, a longest crow distance apart.
pub const CORNERS: [Cell; 2] = [Cell { x: 0, y: 0 }, Cell { x: EDGE, y: EDGE }];
pub const OTHER_CORNERS: [Cell; 2] = [Cell { x: EDGE, y: 0 }, Cell { x: 0, y: EDGE }];

/// The gazetteer number of place u: from the largest word down, in steps that bring 1,024 places near 0.
pub fn gazetteer(u: u32) -> u32 {
    u32::MAX - 4_194_301 * u
}

/// So many places, the first and the last in these corners and the others anywhere.
pub fn drawn(rng: &mut Rng, count: usize, [first, last]: [Cell; 2]) -> Vec<Cell> {
    let mut between = cells(rng, Shape::Spread, count);
    between.retain(|&cell| cell != first && cell != last);
    between.truncate(count - 2);
    [vec![first], between, vec![last]].concat()
}

/// Place u in cell (u,u): each is nearer to the last than the one before.
pub fn diagonal() -> Vec<Cell> {
    (0..GRID_SIDE).map(|u| Cell::at(u, u)).collect()
}

/// All places but the last crowd about place 0, in the rows of a square of 32 by 32 cells, far from the last; cell
/// (31,31) is free.
pub fn crowd() -> Vec<Cell> {
    let mut crowd: Vec<Cell> = (0..EDGE).map(|u| Cell::at(u % CROWD_SIDE, u / CROWD_SIDE)).collect();
    crowd.push(CORNERS[1]);
    crowd
}

/// A loop post through all places, by blocks that shut out no length.
pub fn ring(cells: Vec<Cell>) -> Sheet {
    let count = cells.len() as u32;
    Sheet {
        places: (0..).zip(cells).map(|(u, cell)| Place { cell, gazetteer: gazetteer(u) }).collect(),
        stages: (0..count).map(|u| stage([u, (u + 1) % count, *LENGTHS.end()])).collect(),
        blocks: (0..count).map(|u| block([u, 0, TOP_LEVEL, 0, 0, u32::MAX])).collect(),
        offices: Vec::new(),
    }
}

/// The same past the last place: the last but one leads to place 0.
pub fn ring_past_the_last(cells: Vec<Cell>) -> Sheet {
    let mut map = ring(cells);
    let before_the_last = map.places.len() - 2;
    map.stages[before_the_last].head = 0;
    map
}
