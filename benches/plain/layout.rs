//! The layout rules (refusals 1 to 6), by the library's method and faster; and one pass over all words, which no check
//! of the layout can do without.

use crate::plain::places::{hold_by_tables, hold_by_trees};
use crate::plain::sections::*;
use crate::rules::limits::*;
use crate::rules::refusal::*;

const ALL_CODES: u32 = GRID_SIDE * GRID_SIDE;

/// How many stages leave each place.
type Leaving = [u32; MOST_PLACES];

pub fn same_method(sheet: &[u8]) -> Result<Sections<'_>, Number> {
    laid(sheet, hold_by_trees, blocks_hold_one_by_one)
}

pub fn best(sheet: &[u8]) -> Result<Sections<'_>, Number> {
    laid(sheet, hold_by_tables, blocks_hold_by_masks)
}

pub fn sum_of_words(sheet: &[u8]) -> u32 {
    sheet.chunks_exact(WORD_BYTES).fold(0, |sum: u32, bytes| sum.wrapping_add(word(bytes, 0)))
}

fn laid(
    sheet: &[u8],
    places_hold: fn(&[u8]) -> bool,
    blocks_hold: fn(&[u8], u32, &Leaving) -> bool,
) -> Result<Sections<'_>, Number> {
    let sections = Sections::of(sheet)?;
    let places = sections.place_count() as u32;
    let mut leaving = [0; MOST_PLACES];
    if !places_hold(sections.places) {
        return Err(BAD_PLACES);
    }
    if !stages_hold(sections.stages, places, &mut leaving) {
        return Err(BAD_STAGES);
    }
    if !blocks_hold(sections.blocks, places, &leaving) {
        return Err(BAD_BLOCKS);
    }
    let last = sections.offices.chunks_exact(WORD_BYTES).map(|bytes| word(bytes, 0)).max();
    if last.is_some_and(|place| place >= places) {
        return Err(BAD_OFFICES);
    }
    Ok(sections)
}

fn stages_hold(stages: &[u8], places: u32, leaving: &mut Leaving) -> bool {
    // One more than the stage before, as tail × most places + head.
    let mut from = 0;
    for stage in stages.chunks_exact(STAGE_BYTES) {
        let (tail, head, length) = (word(stage, 0), word(stage, 1), word(stage, 2));
        if tail >= places || head >= places || tail == head || !LENGTHS.contains(&length) {
            return false;
        }
        let key = tail * MOST_PLACES as u32 + head;
        let leave = &mut leaving[tail as usize];
        if key < from || *leave == LEAVING_MOST as u32 {
            return false;
        }
        *leave += 1;
        from = key + 1;
    }
    true
}

fn blocks_hold_one_by_one(blocks: &[u8], places: u32, leaving: &Leaving) -> bool {
    // Where the block before ends, as place × twice all codes + code.
    let mut from = 0;
    for block in blocks.chunks_exact(BLOCK_BYTES) {
        let (place, code, level, colour) = (word(block, 0), word(block, 1), word(block, 2), word(block, 3));
        if place >= places || level > TOP_LEVEL || code >= ALL_CODES || word(block, 4) > word(block, 5) {
            return false;
        }
        let size = 1 << (2 * level);
        let key = place * 2 * ALL_CODES + code;
        if code & (size - 1) != 0 || colour >= leaving[place as usize] || key < from {
            return false;
        }
        from = key + size;
    }
    true
}

/// For each level, the bits that no code of such a block has.
static NEVER_SET: [u32; TOP_LEVEL as usize + 1] = {
    let mut masks = [0; TOP_LEVEL as usize + 1];
    let mut level = 0;
    while level < masks.len() {
        masks[level] = !(ALL_CODES - 1) | ((1 << (2 * level)) - 1);
        level += 1;
    }
    masks
};

/// Place and code as one number, the level by a mask that says both of the code's rules.
fn blocks_hold_by_masks(blocks: &[u8], places: u32, leaving: &Leaving) -> bool {
    let mut from = 0;
    for block in blocks.chunks_exact(BLOCK_BYTES) {
        let (place, code, colour) = (word(block, 0), word(block, 1), word(block, 3));
        let Some(mask) = NEVER_SET.get(word(block, 2) as usize) else {
            return false;
        };
        let key = u64::from(place) << 32 | u64::from(code);
        if key < from || place >= places || code & mask != 0 {
            return false;
        }
        if colour >= leaving[place as usize] || word(block, 4) > word(block, 5) {
            return false;
        }
        from = key + u64::from(mask & (ALL_CODES - 1)) + 1;
    }
    true
}
