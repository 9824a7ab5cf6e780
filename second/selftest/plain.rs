//! The paper's measures worked out a second way (cells, roads, roundings), for the self test only:
//! nothing here is shared with the check and the question.

use crate::rules::limits::{CROW_SCALE, RATIO_UNIT};
use crate::rules::sheet::{Block, Place, Sheet, Stage};

/// A block is a square: its corner is where its code's bits lead, its side 2^level.
pub fn covers(block: &Block, place: &Place) -> bool {
    let side = 1 << block.level;
    let (mut x, mut y) = (0, 0);
    for i in 0..10 {
        x += (block.code >> (2 * i) & 1) << i;
        y += (block.code >> (2 * i + 1) & 1) << i;
    }
    (x..x + side).contains(&place.cell.x) && (y..y + side).contains(&place.cell.y)
}

/// From a guess, up and down to the largest whole number whose square is not too large.
pub fn crow(a: &Place, b: &Place) -> i128 {
    let dx = i128::from(a.cell.x) - i128::from(b.cell.x);
    let dy = i128::from(a.cell.y) - i128::from(b.cell.y);
    let square = i128::from(CROW_SCALE) * (dx * dx + dy * dy);
    let mut root = (square as f64).sqrt() as i128;
    while root * root > square {
        root -= 1;
    }
    while (root + 1) * (root + 1) <= square {
        root += 1;
    }
    root
}

/// The least e with e × unit ≥ low × c, and the greatest e with e × unit ≤ high × c.
fn ends(block: &Block, crow: i128) -> (i128, i128) {
    let unit = i128::from(RATIO_UNIT);
    let mut low = i128::from(block.low) * crow / unit;
    if low * unit < i128::from(block.low) * crow {
        low += 1;
    }
    let mut high = i128::from(block.high) * crow / unit + 1;
    while high * unit > i128::from(block.high) * crow {
        high -= 1;
    }
    (low, high)
}

/// Bellman and Ford from every place: row u has the distances from u.
pub fn roads(sheet: &Sheet) -> Vec<Vec<Option<i128>>> {
    (0..sheet.places.len()).map(|u| roads_from(sheet, u)).collect()
}

pub fn roads_from(sheet: &Sheet, source: usize) -> Vec<Option<i128>> {
    let mut known = vec![None; sheet.places.len()];
    known[source] = Some(0);
    loop {
        let mut changed = false;
        for s in &sheet.stages {
            let Some(so_far) = known[s.tail as usize] else { continue };
            let length = so_far + i128::from(s.length);
            let head = &mut known[s.head as usize];
            if head.is_none_or(|old| length < old) {
                *head = Some(length);
                changed = true;
            }
        }
        if !changed {
            return known;
        }
    }
}

/// The stage of this colour: so many others leave the place before it in sheet order.
pub fn stage_of_colour(sheet: &Sheet, place: u32, colour: u32) -> &Stage {
    let mut leaving = sheet.stages.iter().filter(|s| s.tail == place);
    leaving.nth(colour as usize).expect("the layout holds")
}

/// The block of u that covers v, by the squares.
pub fn block_for(sheet: &Sheet, u: usize, v: usize) -> Option<&Block> {
    sheet.blocks.iter().find(|b| b.place == u as u32 && covers(b, &sheet.places[v]))
}

/// The interval from u to v, unless no block of u covers v.
pub fn ends_between(sheet: &Sheet, u: usize, v: usize) -> Option<(i128, i128)> {
    if u == v {
        return Some((0, 0));
    }
    block_for(sheet, u, v).map(|block| ends(block, crow(&sheet.places[u], &sheet.places[v])))
}

/// The stage that a block of u names for v.
pub fn stage_towards(sheet: &Sheet, u: usize, v: usize) -> &Stage {
    let block = block_for(sheet, u, v).expect("it gave the interval");
    stage_of_colour(sheet, block.place, block.colour)
}
