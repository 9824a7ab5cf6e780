//! The paper's sheet to work by.

use crate::rules::sheet::{Block, Cell, Place, Sheet, Stage};

const PLACES: [[u32; 3]; 4] = [[0, 0, 101], [3, 4, 102], [6, 8, 103], [0, 5, 104]];

const STAGES: [[u32; 3]; 6] = [[0, 1, 6], [0, 3, 9], [1, 0, 6], [1, 2, 5], [2, 1, 5], [3, 0, 9]];

const BLOCKS: [[u32; 6]; 7] = [
    [0, 32, 1, 1, 115, 116],
    [0, 36, 1, 0, 76, 77],
    [0, 128, 3, 0, 70, 71],
    [1, 0, 3, 0, 76, 308],
    [1, 128, 3, 1, 64, 64],
    [2, 0, 10, 0, 64, 192],
    [3, 0, 10, 0, 115, 308],
];

pub fn sheet() -> Sheet {
    Sheet {
        places: PLACES.iter().map(|&p| place(p)).collect(),
        stages: STAGES.iter().map(|&s| stage(s)).collect(),
        blocks: BLOCKS.iter().map(|&b| block(b)).collect(),
        offices: vec![0, 3, 1],
    }
}

pub fn place([x, y, gazetteer]: [u32; 3]) -> Place {
    Place { cell: Cell::at(x, y), gazetteer }
}

pub fn stage([tail, head, length]: [u32; 3]) -> Stage {
    Stage { tail, head, length }
}

pub fn block([place, code, level, colour, low, high]: [u32; 6]) -> Block {
    Block { place, code, level, colour, low, high }
}
