//! Random damage that the layout rules let pass and that a walk falls over: on most sheets 16, 17 or 18.

use crate::inputs::damage::fault::Fault;
use crate::inputs::rng::Rng;
use crate::rules::sheet::Sheet;

pub const WALK_FAULTS: [Fault; 4] = [goes_round, blocks_lost, trees_lost, ends_cross];

/// One stage for all letters of a place, under ratios that never say stop: walks that go round and round (16).
pub fn goes_round(_: &mut Rng, sheet: &mut Sheet) {
    for block in &mut sheet.blocks {
        (block.colour, block.low, block.high) = (0, 0, u32::MAX);
    }
}

/// Blocks here and there that are no more: mostly 17 for a first interval.
fn blocks_lost(rng: &mut Rng, sheet: &mut Sheet) {
    let share = rng.pick(&[1, 2, 8]);
    sheet.blocks.retain(|_| !rng.chance(share));
}

/// Places without blocks, which walks come by: 17 for a refinement.
fn trees_lost(rng: &mut Rng, sheet: &mut Sheet) {
    let places = some_places(rng, sheet);
    sheet.blocks.retain(|b| !places[b.place as usize]);
}

/// Places that see all roads as longer than they are: the overlap is empty where a walk comes by (18).
fn ends_cross(rng: &mut Rng, sheet: &mut Sheet) {
    let places = some_places(rng, sheet);
    for block in sheet.blocks.iter_mut().filter(|b| places[b.place as usize]) {
        let more = block.high.saturating_add(1);
        block.low = block.low.saturating_add(more);
        block.high = block.high.saturating_add(more);
    }
}

fn some_places(rng: &mut Rng, sheet: &Sheet) -> Vec<bool> {
    sheet.places.iter().map(|_| rng.chance(3)).collect()
}
