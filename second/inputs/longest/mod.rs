//! Sheets whose walks reach the largest numbers that the layout allows: up to 1,024 places in a row, stages of 65,535
//! furlongs, ratios up to 2^32-1 and the longest diagonal.

mod astray;
pub mod case;
pub mod maps;
mod rings;

use crate::inputs::rng::Rng;
use case::Case;

pub fn all(rng: &mut Rng) -> Vec<Case> {
    let mut cases = rings::all(rng);
    cases.extend(astray::all(rng));
    cases
}
