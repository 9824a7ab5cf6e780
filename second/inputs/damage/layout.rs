//! Random damage to the records: each fault moves one thing of a sheet to or over an edge of a layout rule.

use crate::inputs::damage::fault::{one, Fault};
use crate::inputs::rng::Rng;
use crate::rules::sheet::{Sheet, Stage};

pub const LAYOUT_FAULTS: [Fault; 22] = [
    coordinate,
    shared_cell,
    moved_place,
    gazetteer,
    gazetteer_twice,
    length,
    head,
    tail,
    same_ends,
    stage_twice,
    stages_swapped,
    ninth_stage,
    block_place,
    level,
    code,
    odd_code,
    colour,
    ratios,
    block_twice,
    blocks_swapped,
    block_grown,
    office,
];

fn count(sheet: &Sheet) -> u32 {
    sheet.places.len() as u32
}

fn leaving(sheet: &Sheet, place: u32) -> u32 {
    sheet.stages.iter().filter(|s| s.tail == place).count() as u32
}

fn coordinate(rng: &mut Rng, sheet: &mut Sheet) {
    let value = rng.pick(&[1_023, 1_024, 1_025, u32::MAX]);
    let across = rng.chance(8);
    if let Some(place) = one(rng, &mut sheet.places) {
        *(if across { &mut place.cell.x } else { &mut place.cell.y }) = value;
    }
}

fn shared_cell(rng: &mut Rng, sheet: &mut Sheet) {
    let cell = rng.pick(&sheet.places).cell;
    if let Some(place) = one(rng, &mut sheet.places) {
        place.cell = cell;
    }
}

fn moved_place(rng: &mut Rng, sheet: &mut Sheet) {
    let step = rng.pick(&[1, 2, 64]);
    if let Some(place) = one(rng, &mut sheet.places) {
        place.cell.x = place.cell.x.saturating_add(step);
    }
}

fn gazetteer(rng: &mut Rng, sheet: &mut Sheet) {
    let value = rng.pick(&[0, 0, 1, u32::MAX]);
    if let Some(place) = one(rng, &mut sheet.places) {
        place.gazetteer = value;
    }
}

/// The number of another place, or one that differs from it in one bit.
fn gazetteer_twice(rng: &mut Rng, sheet: &mut Sheet) {
    let number = rng.pick(&sheet.places).gazetteer;
    let other = if rng.chance(12) { 0 } else { 1 << rng.below(32) };
    if let Some(place) = one(rng, &mut sheet.places) {
        place.gazetteer = number ^ other;
    }
}

fn length(rng: &mut Rng, sheet: &mut Sheet) {
    let value = rng.pick(&[0, 1, 65_535, 65_536, u32::MAX]);
    if let Some(stage) = one(rng, &mut sheet.stages) {
        stage.length = value;
    }
}

fn head(rng: &mut Rng, sheet: &mut Sheet) {
    let places = count(sheet);
    let value = rng.pick(&[places - 1, places, u32::MAX]);
    if let Some(stage) = one(rng, &mut sheet.stages) {
        stage.head = value;
    }
}

fn tail(rng: &mut Rng, sheet: &mut Sheet) {
    let places = count(sheet);
    let value = rng.pick(&[places - 1, places, u32::MAX]);
    if let Some(stage) = sheet.stages.last_mut() {
        stage.tail = value;
    }
}

fn same_ends(rng: &mut Rng, sheet: &mut Sheet) {
    if let Some(stage) = one(rng, &mut sheet.stages) {
        stage.head = stage.tail;
    }
}

fn stage_twice(rng: &mut Rng, sheet: &mut Sheet) {
    if !sheet.stages.is_empty() {
        let at = rng.below(sheet.stages.len());
        sheet.stages.insert(at, sheet.stages[at]);
    }
}

fn stages_swapped(rng: &mut Rng, sheet: &mut Sheet) {
    if sheet.stages.len() > 1 {
        let at = rng.below(sheet.stages.len() - 1);
        sheet.stages.swap(at, at + 1);
    }
}

/// Fills a place up to eight or nine stages, in order; the colours of its blocks may change meaning.
fn ninth_stage(rng: &mut Rng, sheet: &mut Sheet) {
    let tail = rng.below(sheet.places.len()) as u32;
    let wanted = rng.pick(&[8, 9]);
    for head in 0..count(sheet) {
        let there = sheet.stages.iter().any(|s| (s.tail, s.head) == (tail, head));
        if head != tail && !there && leaving(sheet, tail) < wanted {
            sheet.stages.push(Stage { tail, head, length: 1 });
        }
    }
    sheet.stages.sort_by_key(|s| (s.tail, s.head));
}

fn block_place(rng: &mut Rng, sheet: &mut Sheet) {
    let places = count(sheet);
    let value = rng.pick(&[places - 1, places, u32::MAX]);
    if let Some(block) = sheet.blocks.last_mut() {
        block.place = value;
    }
}

fn level(rng: &mut Rng, sheet: &mut Sheet) {
    let value = rng.pick(&[0, 9, 10, 11, 31, 32, u32::MAX]);
    if let Some(block) = one(rng, &mut sheet.blocks) {
        block.level = value;
    }
}

fn code(rng: &mut Rng, sheet: &mut Sheet) {
    let value = rng.pick(&[0, 1_048_575, 1_048_576, u32::MAX]);
    let level = rng.pick(&[0, 10]);
    if let Some(block) = one(rng, &mut sheet.blocks) {
        block.code = value;
        block.level = block.level.min(level);
    }
}

fn odd_code(rng: &mut Rng, sheet: &mut Sheet) {
    let step = rng.pick(&[1, 2, 4, 16]);
    if let Some(block) = one(rng, &mut sheet.blocks) {
        block.code = block.code.wrapping_add(step);
    }
}

fn colour(rng: &mut Rng, sheet: &mut Sheet) {
    let at = rng.below(sheet.blocks.len());
    if let Some(place) = sheet.blocks.get(at).map(|b| b.place) {
        let number = leaving(sheet, place);
        sheet.blocks[at].colour = rng.pick(&[number.wrapping_sub(1), number, number + 1, u32::MAX]);
    }
}

fn ratios(rng: &mut Rng, sheet: &mut Sheet) {
    let step = rng.pick(&[0, 1, 1]);
    if let Some(block) = one(rng, &mut sheet.blocks) {
        block.low = block.high.saturating_add(step);
    }
}

fn block_twice(rng: &mut Rng, sheet: &mut Sheet) {
    if !sheet.blocks.is_empty() {
        let at = rng.below(sheet.blocks.len());
        sheet.blocks.insert(at, sheet.blocks[at]);
    }
}

fn blocks_swapped(rng: &mut Rng, sheet: &mut Sheet) {
    if sheet.blocks.len() > 1 {
        let at = rng.below(sheet.blocks.len() - 1);
        sheet.blocks.swap(at, at + 1);
    }
}

/// The next level up at the right multiple: it overlaps a neighbour or takes in more cells.
fn block_grown(rng: &mut Rng, sheet: &mut Sheet) {
    if let Some(block) = one(rng, &mut sheet.blocks) {
        block.level = block.level.saturating_add(1);
        block.code &= !0 << (2 * block.level.min(15));
    }
}

fn office(rng: &mut Rng, sheet: &mut Sheet) {
    let places = count(sheet);
    let value = rng.pick(&[places - 1, places, places, u32::MAX]);
    if let Some(office) = one(rng, &mut sheet.offices) {
        *office = value;
    }
}
