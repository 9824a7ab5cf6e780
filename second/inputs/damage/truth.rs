//! Random damage that leaves the layout whole as far as it can: the sheet only stops telling the truth.

use crate::inputs::damage::fault::{one, Fault};
use crate::inputs::rng::Rng;
use crate::rules::map::Map;
use crate::rules::measure::code_of;
use crate::rules::sheet::{Block, Sheet};
use std::collections::BTreeMap;

pub const TRUTH_FAULTS: [Fault; 15] = [
    block_removed,
    tree_removed,
    block_shrunk,
    colour_changed,
    colours_at_random,
    lost_in_loops,
    low_raised,
    high_lowered,
    ratios_crushed,
    wrong_twice,
    idle_block,
    own_cell_block,
    length_changed,
    no_way_in,
    no_way_out,
];

fn block_removed(rng: &mut Rng, sheet: &mut Sheet) {
    if !sheet.blocks.is_empty() {
        let at = rng.below(sheet.blocks.len());
        sheet.blocks.remove(at);
    }
}

fn tree_removed(rng: &mut Rng, sheet: &mut Sheet) {
    let place = rng.below(sheet.places.len()) as u32;
    sheet.blocks.retain(|b| b.place != place);
}

/// One of the block's own quarters in its stead.
fn block_shrunk(rng: &mut Rng, sheet: &mut Sheet) {
    let quarter = rng.between(0, 3);
    if let Some(block) = one(rng, &mut sheet.blocks) {
        if (1..=10).contains(&block.level) {
            block.level -= 1;
            block.code = block.code.wrapping_add(quarter << (2 * block.level));
        }
    }
}

fn colour_changed(rng: &mut Rng, sheet: &mut Sheet) {
    let at = rng.below(sheet.blocks.len());
    if let Some(place) = sheet.blocks.get(at).map(|b| b.place) {
        let leaving = sheet.stages.iter().filter(|s| s.tail == place).count();
        sheet.blocks[at].colour = rng.below(leaving) as u32;
    }
}

fn colours_at_random(rng: &mut Rng, sheet: &mut Sheet) {
    // Counted once: a full-size sheet has very many blocks.
    let mut leaving: BTreeMap<u32, usize> = BTreeMap::new();
    for stage in &sheet.stages {
        *leaving.entry(stage.tail).or_default() += 1;
    }
    for block in &mut sheet.blocks {
        let count = leaving.get(&block.place).copied().unwrap_or(0);
        block.colour = rng.below(count) as u32;
    }
}

/// Colours at random under ratios that never say stop: walks that go round and round.
fn lost_in_loops(rng: &mut Rng, sheet: &mut Sheet) {
    colours_at_random(rng, sheet);
    for block in &mut sheet.blocks {
        block.low = 0;
        block.high = u32::MAX;
    }
}

fn low_raised(rng: &mut Rng, sheet: &mut Sheet) {
    let step = rng.between(1, 2);
    if let Some(block) = one(rng, &mut sheet.blocks) {
        block.low = block.low.saturating_add(step);
        block.high = block.high.max(block.low);
    }
}

fn high_lowered(rng: &mut Rng, sheet: &mut Sheet) {
    let step = rng.between(1, 2);
    if let Some(block) = one(rng, &mut sheet.blocks) {
        block.high = block.high.saturating_sub(step);
        block.low = block.low.min(block.high);
    }
}

/// Equal ratios that often round to an empty interval.
fn ratios_crushed(rng: &mut Rng, sheet: &mut Sheet) {
    let ratio = rng.pick(&[1, 3, 63, 1_000]);
    if let Some(block) = one(rng, &mut sheet.blocks) {
        block.low = ratio;
        block.high = ratio;
    }
}

/// Colours and ratios at once, so that one pair has two faults.
fn wrong_twice(rng: &mut Rng, sheet: &mut Sheet) {
    colours_at_random(rng, sheet);
    for block in &mut sheet.blocks {
        let off = if rng.chance(12) { 7 } else { 0 };
        block.low = block.low.saturating_add(off);
        block.high = block.high.max(block.low);
    }
}

/// A block of one cell, put in its order among the blocks unless its cell is covered already.
fn add_cell_block(sheet: &mut Sheet, place: u32, code: u32) {
    // Earlier damage may have left any level there.
    let square = |b: &Block, code: u32| code >> (2 * b.level.min(15));
    let covered = |b: &Block| b.place == place && square(b, code) == square(b, b.code);
    let leaves = sheet.stages.iter().any(|s| s.tail == place);
    if leaves && !sheet.blocks.iter().any(covered) {
        let at = sheet.blocks.partition_point(|b| (b.place, b.code) < (place, code));
        sheet.blocks.insert(at, Block { place, code, level: 0, colour: 0, low: 0, high: 0 });
    }
}

fn idle_block(rng: &mut Rng, sheet: &mut Sheet) {
    for _ in 0..20 {
        let place = rng.below(sheet.places.len());
        let beside = code_of(sheet.places[place].cell) as u32 ^ rng.pick(&[1, 2, 3, 5, 1 << 19]);
        let code = if rng.chance(8) { beside } else { rng.between(0, 1_048_575) };
        if !sheet.places.iter().any(|p| code_of(p.cell) == u64::from(code)) {
            add_cell_block(sheet, place as u32, code);
        }
    }
}

fn own_cell_block(_: &mut Rng, sheet: &mut Sheet) {
    for place in 0..sheet.places.len() {
        add_cell_block(sheet, place as u32, code_of(sheet.places[place].cell) as u32);
    }
}

fn length_changed(rng: &mut Rng, sheet: &mut Sheet) {
    let shorter = rng.chance(8);
    if let Some(stage) = one(rng, &mut sheet.stages) {
        let next = if shorter { stage.length.saturating_sub(1) } else { stage.length.saturating_add(1) };
        stage.length = next.clamp(1, 65_535);
    }
}

fn no_way_in(rng: &mut Rng, sheet: &mut Sheet) {
    let place = rng.below(sheet.places.len()) as u32;
    sheet.stages.retain(|s| s.head != place);
    mend_colours(sheet);
}

fn no_way_out(rng: &mut Rng, sheet: &mut Sheet) {
    let place = rng.below(sheet.places.len()) as u32;
    sheet.stages.retain(|s| s.tail != place);
    mend_colours(sheet);
}

/// Blocks may only name stages that are still there.
fn mend_colours(sheet: &mut Sheet) {
    if sheet.stages.iter().any(|s| s.tail as usize >= sheet.places.len()) {
        return;
    }
    let named = Sheet { blocks: Vec::new(), ..sheet.clone() };
    let map = Map::of(&named);
    let leaving = |b: &Block| if (b.place as usize) < map.places() { map.leaving(b.place as usize).len() } else { 0 };
    sheet.blocks.retain(|b| leaving(b) > 0);
    for block in &mut sheet.blocks {
        block.colour = block.colour.min(leaving(block) as u32 - 1);
    }
}
