//! The layout rules of the four sections (refusals 3 to 6), each over its whole section.

use crate::rules::limits::*;
use crate::rules::refusal::*;
use crate::rules::sheet::{Block, Place, Sheet, Stage};
use std::collections::BTreeSet;

/// The sheet in the bytes, or the first of 1 to 6 that is due.
pub fn read(bytes: &[u8]) -> Result<Sheet, Number> {
    let sheet = Sheet::from_bytes(bytes)?;
    let rules: [(fn(&Sheet) -> bool, Number); 4] = [
        (places_hold, BAD_PLACES),
        (stages_hold, BAD_STAGES),
        (blocks_hold, BAD_BLOCKS),
        (offices_hold, BAD_OFFICES),
    ];
    for (holds, number) in rules {
        if !holds(&sheet) {
            return Err(number);
        }
    }
    Ok(sheet)
}

/// How many codes a block of this level covers; the level is at most `TOP_LEVEL`.
pub fn codes_covered(level: u32) -> u64 {
    1u64 << (2 * level)
}

fn names_a_place(sheet: &Sheet, place: u32) -> bool {
    (place as usize) < sheet.places.len()
}

fn places_hold(sheet: &Sheet) -> bool {
    sheet.places.iter().all(place_holds)
        && all_differ(sheet.places.iter().map(|p| p.cell))
        && all_differ(sheet.places.iter().map(|p| p.gazetteer))
}

fn place_holds(p: &Place) -> bool {
    p.cell.x < GRID_SIDE && p.cell.y < GRID_SIDE && p.gazetteer != 0
}

fn all_differ<T: Ord>(mut items: impl Iterator<Item = T>) -> bool {
    let mut met = BTreeSet::new();
    items.all(|item| met.insert(item))
}

fn stages_hold(sheet: &Sheet) -> bool {
    let each = sheet.stages.iter().all(|s| stage_holds(sheet, s));
    let ascend = sheet.stages.windows(2).all(|s| (s[0].tail, s[0].head) < (s[1].tail, s[1].head));
    each && ascend && leaving_counts(sheet).iter().all(|&count| count <= LEAVING_MOST)
}

fn stage_holds(sheet: &Sheet, s: &Stage) -> bool {
    names_a_place(sheet, s.tail)
        && names_a_place(sheet, s.head)
        && s.tail != s.head
        && LENGTHS.contains(&s.length)
}

/// For each place, how many stages leave it; a tail that names no place counts nowhere.
fn leaving_counts(sheet: &Sheet) -> Vec<usize> {
    let mut counts = vec![0; sheet.places.len()];
    for s in &sheet.stages {
        if names_a_place(sheet, s.tail) {
            counts[s.tail as usize] += 1;
        }
    }
    counts
}

fn blocks_hold(sheet: &Sheet) -> bool {
    let leaving = leaving_counts(sheet);
    sheet.blocks.iter().all(|b| block_holds(sheet, &leaving, b))
        && sheet.blocks.windows(2).all(|b| follows(&b[0], &b[1]))
}

fn block_holds(sheet: &Sheet, leaving: &[usize], b: &Block) -> bool {
    names_a_place(sheet, b.place)
        && b.level <= TOP_LEVEL
        && u64::from(b.code) < codes_covered(TOP_LEVEL)
        && u64::from(b.code).is_multiple_of(codes_covered(b.level))
        && (b.colour as usize) < leaving[b.place as usize]
        && b.low <= b.high
}

fn follows(last: &Block, next: &Block) -> bool {
    let end = u64::from(last.code) + codes_covered(last.level);
    last.place < next.place || last.place == next.place && end <= u64::from(next.code)
}

fn offices_hold(sheet: &Sheet) -> bool {
    sheet.offices.iter().all(|&place| names_a_place(sheet, place))
}
