//! True sheets up to the layout's own limits: nets of many places, quadtrees drawn up fast and to a number of blocks.

mod distances;
mod kind;
mod nets;
mod trees;

use crate::inputs::draw::offices;
use crate::inputs::rng::Rng;
use crate::rules::sheet::Sheet;
pub use kind::{Kind, KINDS};

/// A true sheet of so many places and offices. It has as many blocks as are wanted, or up to two fewer; but no fewer
/// than the colours ask for, and no more than one for each pair of places.
pub fn sheet(kind: Kind, places: usize, blocks: usize, offices_wanted: usize, seed: u64) -> Sheet {
    let mut rng = Rng::new(seed, places as u64);
    let (places, stages) = nets::net(&mut rng, kind, places);
    let offices = offices(&mut rng, places.len(), offices_wanted, places.len());
    let mut sheet = Sheet { places, stages, blocks: Vec::new(), offices };
    sheet.blocks = trees::blocks(&sheet, blocks);
    sheet
}
