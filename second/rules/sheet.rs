//! The four sections of a sheet as records, read from bytes (refusals 1 and 2) and written to bytes.

use crate::rules::limits::*;
use crate::rules::refusal::*;
use std::ops::RangeInclusive;

#[derive(Clone, Copy, PartialEq, Eq, PartialOrd, Ord, Debug)]
pub struct Cell {
    pub x: u32,
    pub y: u32,
}

#[derive(Clone, Copy, PartialEq, Debug)]
pub struct Place {
    pub cell: Cell,
    pub gazetteer: u32,
}

#[derive(Clone, Copy, PartialEq, Debug)]
pub struct Stage {
    pub tail: u32,
    pub head: u32,
    pub length: u32,
}

#[derive(Clone, Copy, PartialEq, Debug)]
pub struct Block {
    pub place: u32,
    pub code: u32,
    pub level: u32,
    pub colour: u32,
    pub low: u32,
    pub high: u32,
}

#[derive(Clone, PartialEq, Debug, Default)]
pub struct Sheet {
    pub places: Vec<Place>,
    pub stages: Vec<Stage>,
    pub blocks: Vec<Block>,
    pub offices: Vec<u32>,
}

impl Cell {
    pub fn at(x: u32, y: u32) -> Cell {
        Cell { x, y }
    }
}

impl Sheet {
    /// The sections as they stand, whatever their records say.
    pub fn from_bytes(bytes: &[u8]) -> Result<Sheet, Number> {
        if !bytes.len().is_multiple_of(WORD_BYTES) {
            return Err(CUT_SHORT);
        }
        let words = words_of(bytes);
        let mut rest = &words[..];
        let places = section(&mut rest, PLACES, PLACE_WORDS)?;
        let stages = section(&mut rest, STAGES, STAGE_WORDS)?;
        let blocks = section(&mut rest, BLOCKS, BLOCK_WORDS)?;
        let offices = section(&mut rest, OFFICES, OFFICE_WORDS)?;
        if !rest.is_empty() {
            return Err(CUT_SHORT);
        }
        Ok(Sheet {
            places: places.chunks(PLACE_WORDS).map(place).collect(),
            stages: stages.chunks(STAGE_WORDS).map(stage).collect(),
            blocks: blocks.chunks(BLOCK_WORDS).map(block).collect(),
            offices: offices.to_vec(),
        })
    }

    pub fn to_bytes(&self) -> Vec<u8> {
        let mut words = vec![self.places.len() as u32];
        self.places.iter().for_each(|p| words.extend([p.cell.x, p.cell.y, p.gazetteer]));
        words.push(self.stages.len() as u32);
        self.stages.iter().for_each(|s| words.extend([s.tail, s.head, s.length]));
        words.push(self.blocks.len() as u32);
        for b in &self.blocks {
            words.extend([b.place, b.code, b.level, b.colour, b.low, b.high]);
        }
        words.push(self.offices.len() as u32);
        words.extend(&self.offices);
        bytes_of(&words)
    }

    /// Where the count of each section stands, in words from the start.
    pub fn count_positions(&self) -> [usize; 4] {
        let stages = 1 + self.places.len() * PLACE_WORDS;
        let blocks = stages + 1 + self.stages.len() * STAGE_WORDS;
        let offices = blocks + 1 + self.blocks.len() * BLOCK_WORDS;
        [0, stages, blocks, offices]
    }
}

pub fn words_of(bytes: &[u8]) -> Vec<u32> {
    bytes.chunks_exact(WORD_BYTES).map(|b| u32::from_le_bytes([b[0], b[1], b[2], b[3]])).collect()
}

pub fn bytes_of(words: &[u32]) -> Vec<u8> {
    words.iter().flat_map(|w| w.to_le_bytes()).collect()
}

/// One section in the paper's order of tests: count present, count in range, records present.
fn section<'a>(
    rest: &mut &'a [u32],
    range: RangeInclusive<u32>,
    record: usize,
) -> Result<&'a [u32], Number> {
    let (&count, after) = rest.split_first().ok_or(CUT_SHORT)?;
    if !range.contains(&count) {
        return Err(BAD_COUNT);
    }
    let need = count as usize * record;
    if after.len() < need {
        return Err(CUT_SHORT);
    }
    let (records, left) = after.split_at(need);
    *rest = left;
    Ok(records)
}

fn place(w: &[u32]) -> Place {
    Place { cell: Cell::at(w[0], w[1]), gazetteer: w[2] }
}

fn stage(w: &[u32]) -> Stage {
    Stage { tail: w[0], head: w[1], length: w[2] }
}

fn block(w: &[u32]) -> Block {
    Block { place: w[0], code: w[1], level: w[2], colour: w[3], low: w[4], high: w[5] }
}
