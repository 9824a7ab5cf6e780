//! The sheets of a run: true ones of four kinds, at any size.

use crate::inputs::draw::offices;
use crate::inputs::full::{self, Kind};
use crate::inputs::rng::Rng;
use crate::rules::limits::{BLOCKS, PLACES};
use crate::rules::sheet::Sheet;

/// Their names: roads to near places; a grid; eight stages from each place; the last once more with as many blocks as a
/// sheet may have.
pub const NAMES: [&str; 4] = ["geo", "grid", "eight", "full"];

const SEED: u64 = 1;

/// Blocks for each place of a full sheet, so that one of the most places has the most blocks.
const FULL_TREE: usize = (*BLOCKS.end() / *PLACES.end()) as usize;

pub struct Drawn {
    pub name: &'static str,
    pub sheet: Sheet,
    pub bytes: Vec<u8>,
}

impl Drawn {
    pub fn of(name: &'static str, places: usize, office_count: usize) -> Drawn {
        let (kind, blocks) = match name {
            "geo" => (Kind::Near, 0),
            "grid" => (Kind::Grid, 0),
            "eight" => (Kind::Eight, 0),
            _ => (Kind::Eight, FULL_TREE * places),
        };
        let sheet = full::sheet(kind, places, blocks, office_count, SEED);
        Drawn { name, bytes: sheet.to_bytes(), sheet }
    }

    /// The same places, stages and blocks with so many offices.
    pub fn with_offices(&self, count: usize) -> Drawn {
        let places = self.places();
        let offices = offices(&mut Rng::new(SEED, count as u64), places, count, places);
        let sheet = Sheet { offices, ..self.sheet.clone() };
        Drawn { name: self.name, bytes: sheet.to_bytes(), sheet }
    }

    pub fn places(&self) -> usize {
        self.sheet.places.len()
    }

    /// What to call it where something is told of it.
    pub fn title(&self) -> String {
        format!("{} sheet of {} places and {} offices", self.name, self.places(), self.sheet.offices.len())
    }
}
