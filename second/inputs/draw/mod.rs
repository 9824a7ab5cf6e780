//! Random sheets that tell the truth, and questions about them.

pub mod gazetteer;
pub mod net;
pub mod places;
pub mod trees;

use crate::inputs::rng::Rng;
use crate::rules::asked::Asked;
use crate::rules::limits::DIRECTIONS;
use crate::rules::sheet::Sheet;
use gazetteer::{any_numbers, numbered};
use net::{stages, Lengths, Net, LENGTH_STYLES, NETS};
use places::{cells, Shape, SHAPES};
use trees::{blocks, Habit, RATIO_STYLES};

/// Everything that is settled about a sheet before it is drawn.
#[derive(Clone, Copy)]
pub struct Plan {
    pub places: usize,
    pub shape: Shape,
    pub net: Net,
    pub lengths: Lengths,
    pub extra: usize,
    pub habit: Habit,
    pub offices: usize,
    /// Offices stand at this many places at most.
    pub office_places: usize,
}

impl Plan {
    pub fn any(rng: &mut Rng) -> Plan {
        let places = place_count(rng);
        let split = if places > 30 { rng.below(3) } else { rng.pick(&[0, 0, 2, 4, 8, 14, 16]) };
        Plan {
            places,
            shape: rng.pick(&SHAPES),
            net: rng.pick(&NETS),
            lengths: rng.pick(&LENGTH_STYLES),
            extra: rng.pick(&[0, 1, places / 2, places, 3 * places, 8 * places]),
            habit: Habit { split, loosen: rng.pick(&[0, 4, 8, 16]), ratios: rng.pick(&RATIO_STYLES) },
            offices: office_count(rng),
            office_places: rng.pick(&[1, 2, 5, 1_000, 1_000, 1_000]),
        }
    }

    /// A sheet of many places but few blocks, so that it keeps within the program's bytes.
    pub fn lean(rng: &mut Rng, places: usize, offices: usize) -> Plan {
        let net = rng.pick(&[Net::Loop, Net::Chain]);
        let shape = if net == Net::Loop { rng.pick(&SHAPES) } else { Shape::Row };
        let habit = Habit { split: 0, loosen: 4, ratios: rng.pick(&RATIO_STYLES) };
        let any = Plan::any(rng);
        Plan { places, shape, net, extra: rng.below(3), habit, offices, office_places: 1_000, ..any }
    }

    pub fn sheet(&self, rng: &mut Rng) -> Sheet {
        let cells = cells(rng, self.shape, self.places);
        let mut aside = rng.aside();
        let numbers = any_numbers(&mut aside);
        let places = numbered(&mut aside, &cells, numbers);
        let stages = stages(rng, &places, self.net, self.lengths, self.extra);
        let offices = offices(rng, self.places, self.offices, self.office_places);
        let mut sheet = Sheet { places, stages, blocks: Vec::new(), offices };
        sheet.blocks = blocks(rng, &sheet, self.habit);
        sheet
    }
}

pub fn true_sheet(rng: &mut Rng) -> Sheet {
    Plan::any(rng).sheet(rng)
}

fn place_count(rng: &mut Rng) -> usize {
    match rng.below(32) {
        0 => 1,
        1..=7 => 2 + rng.below(3),
        8..=22 => 5 + rng.below(8),
        23..=29 => 13 + rng.below(18),
        _ => 31 + rng.below(30),
    }
}

fn office_count(rng: &mut Rng) -> usize {
    match rng.below(32) {
        0 => 0,
        1 | 2 => 1,
        3..=18 => 2 + rng.below(5),
        19..=28 => 7 + rng.below(14),
        _ => 21 + rng.below(40),
    }
}

/// So many offices, at so many different places at most.
pub fn offices(rng: &mut Rng, places: usize, count: usize, spread: usize) -> Vec<u32> {
    let mut towns: Vec<u32> = (0..places as u32).collect();
    rng.shuffle(&mut towns);
    towns.truncate(spread.max(1));
    (0..count).map(|_| rng.pick(&towns)).collect()
}

/// Directions that are neither: the first, bytes and bits beyond the lowest, all bits.
pub const NO_DIRECTIONS: [u32; 5] = [2, 3, 256, 1 << 31, u32::MAX];

/// The two directions about equally often, now and then neither. Nothing is taken from the sequence.
pub fn any_direction(rng: &Rng) -> u32 {
    let mut aside = rng.aside();
    if aside.below(32) == 0 { aside.pick(&NO_DIRECTIONS) } else { aside.pick(&DIRECTIONS) }
}

/// A question: mostly valid, sometimes at or beyond an edge.
pub fn ask(rng: &mut Rng, sheet: &Sheet) -> Asked {
    let (places, offices) = (sheet.places.len() as u32, sheet.offices.len() as u32);
    let edge = rng.below(32);
    let q = match rng.below(24) {
        _ if edge < 2 => rng.pick(&[places, places - 1, places + 1, u32::MAX]),
        0..=3 if offices > 0 => rng.pick(&sheet.offices),
        _ => rng.below(places as usize) as u32,
    };
    let k = match rng.below(24) {
        _ if edge == 1 || edge == 2 => rng.pick(&[0, offices, offices + 1, u32::MAX]),
        0..=4 => offices,
        5..=11 => rng.between(1, 3).min(offices),
        _ => rng.between(1, offices.max(1)),
    };
    Asked { q, k, direction: any_direction(rng) }
}

/// A valid question, when the sheet has an office.
pub fn ask_well(rng: &mut Rng, sheet: &Sheet) -> Asked {
    let q = rng.below(sheet.places.len()) as u32;
    let k = rng.between(1, sheet.offices.len().max(1) as u32);
    Asked { q, k, direction: rng.aside().pick(&DIRECTIONS) }
}
