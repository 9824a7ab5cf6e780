//! A sheet whose layout holds, sorted out by place: the stages that leave it and its blocks.

use crate::rules::layout::codes_covered;
use crate::rules::measure::{code_of, crow, interval_by, Crow, Interval};
use crate::rules::sheet::{Block, Sheet, Stage};

pub struct Map<'a> {
    pub sheet: &'a Sheet,
    codes: Vec<u64>,
    leaving: Vec<&'a [Stage]>,
    trees: Vec<&'a [Block]>,
}

impl<'a> Map<'a> {
    pub fn of(sheet: &'a Sheet) -> Map<'a> {
        let count = sheet.places.len();
        let mut leaving = vec![&sheet.stages[..0]; count];
        for stages in sheet.stages.chunk_by(|a, b| a.tail == b.tail) {
            leaving[stages[0].tail as usize] = stages;
        }
        let mut trees = vec![&sheet.blocks[..0]; count];
        for tree in sheet.blocks.chunk_by(|a, b| a.place == b.place) {
            trees[tree[0].place as usize] = tree;
        }
        let codes = sheet.places.iter().map(|p| code_of(p.cell)).collect();
        Map { sheet, codes, leaving, trees }
    }

    pub fn places(&self) -> usize {
        self.sheet.places.len()
    }

    /// The stages that leave u; a stage's position here is its colour.
    pub fn leaving(&self, u: usize) -> &'a [Stage] {
        self.leaving[u]
    }

    pub fn stage_named(&self, block: &Block) -> &'a Stage {
        &self.leaving[block.place as usize][block.colour as usize]
    }

    pub fn covers(&self, block: &Block, v: usize) -> bool {
        let first = u64::from(block.code);
        (first..first + codes_covered(block.level)).contains(&self.codes[v])
    }

    /// The block of u that covers v.
    pub fn covering(&self, u: usize, v: usize) -> Option<&'a Block> {
        self.trees[u].iter().find(|block| self.covers(block, v))
    }

    pub fn crow(&self, u: usize, v: usize) -> Crow {
        crow(self.sheet.places[u].cell, self.sheet.places[v].cell)
    }

    /// The interval from u to v, unless no block of u covers v.
    pub fn interval(&self, u: usize, v: usize) -> Option<Interval> {
        if u == v {
            return Some(Interval::AT_HOME);
        }
        self.covering(u, v).map(|block| interval_by(block, self.crow(u, v)))
    }
}
