//! A direct reading of the layout rules and of "When a sheet tells the truth", without any order of tests.

use crate::rules::limits::RATIO_UNIT;
use crate::rules::refusal::*;
use crate::rules::sheet::{Block, Sheet};
use crate::selftest::plain::{block_for, covers, crow, roads, stage_of_colour};

/// Whether the rules of places, stages, blocks and offices hold, one by one.
pub fn layout(sheet: &Sheet) -> [bool; 4] {
    let count = sheet.places.len() as u32;
    let stages = stages_hold(sheet, count);
    // Without stages that hold, no colour means anything; the blocks are not asked about.
    [places_hold(sheet), stages, stages && blocks_hold(sheet, count), sheet.offices.iter().all(|&p| p < count)]
}

fn places_hold(sheet: &Sheet) -> bool {
    let mut cells: Vec<(u32, u32)> = sheet.places.iter().map(|p| (p.cell.x, p.cell.y)).collect();
    cells.sort();
    cells.dedup();
    // 0 put before them: then each in order is larger than the one before.
    let mut numbers = vec![0];
    numbers.extend(sheet.places.iter().map(|p| p.gazetteer));
    numbers.sort();
    cells.len() == sheet.places.len()
        && cells.iter().all(|&(x, y)| x <= 1_023 && y <= 1_023)
        && numbers.windows(2).all(|n| n[0] < n[1])
}

fn stages_hold(sheet: &Sheet, count: u32) -> bool {
    let pairs: Vec<(u32, u32)> = sheet.stages.iter().map(|s| (s.tail, s.head)).collect();
    let mut ascending = pairs.clone();
    ascending.sort();
    ascending.dedup();
    ascending == pairs
        && pairs.iter().all(|&(tail, head)| tail != head && tail.max(head) < count)
        && sheet.stages.iter().all(|s| s.length != 0 && s.length < 65_536)
        && pairs.iter().all(|one| pairs.iter().filter(|other| other.0 == one.0).count() < 9)
}

fn blocks_hold(sheet: &Sheet, count: u32) -> bool {
    let each = |b: &Block| {
        let leaving = sheet.stages.iter().filter(|s| s.tail == b.place).count();
        b.place < count
            && b.level < 11
            && b.code < 1_048_576
            && b.code.trailing_zeros() >= 2 * b.level
            && (b.colour as usize) < leaving
            && b.high >= b.low
    };
    // Places and codes put end to end: each block begins where the last one ended, or later.
    let first = |b: &Block| u64::from(b.place) * 1_048_576 + u64::from(b.code);
    let end = |b: &Block| first(b) + 4u64.pow(b.level);
    sheet.blocks.iter().all(each) && sheet.blocks.windows(2).all(|b| end(&b[0]) <= first(&b[1]))
}

/// For a sheet whose layout holds: whether it tells the truth.
pub fn tells_the_truth(sheet: &Sheet) -> bool {
    let roads = roads(sheet);
    let others = |u: usize| (0..sheet.places.len()).filter(move |&v| v != u);
    roads.iter().flatten().all(|road| road.is_some())
        && (0..sheet.places.len()).all(|u| others(u).all(|v| pair_is_true(sheet, &roads, u, v)))
        && sheet.blocks.iter().all(|b| others(b.place as usize).any(|v| covers(b, &sheet.places[v])))
}

fn pair_is_true(sheet: &Sheet, roads: &[Vec<Option<i128>>], u: usize, v: usize) -> bool {
    pair_faults(sheet, roads, u, v).is_empty()
}

/// All that is wrong with a pair, every place being reached.
fn pair_faults(sheet: &Sheet, roads: &[Vec<Option<i128>>], u: usize, v: usize) -> Vec<Number> {
    let Some(block) = block_for(sheet, u, v) else { return vec![IN_NO_BLOCK] };
    let stage = stage_of_colour(sheet, block.place, block.colour);
    let onward = roads[stage.head as usize][v].expect("every place is reached");
    let distance = roads[u][v].expect("every place is reached");
    let crow = crow(&sheet.places[u], &sheet.places[v]);
    let scaled = distance * i128::from(RATIO_UNIT);
    let mut faults = Vec::new();
    if i128::from(block.low) * crow > scaled || scaled > i128::from(block.high) * crow {
        faults.push(UNTRUE_RATIO);
    }
    if i128::from(stage.length) + onward != distance {
        faults.push(WRONG_COLOUR);
    }
    faults
}

/// What the check should say of a sheet whose layout holds: all faults are gathered, each with its
/// rank (reached, pairs, blocks; then u, v, number), and the first in rank is due.
pub fn due_of_check(sheet: &Sheet) -> Number {
    let roads = roads(sheet);
    if roads.iter().flatten().any(|road| road.is_none()) {
        return UNREACHED;
    }
    let count = sheet.places.len();
    let mut faults = Vec::new();
    for (u, v) in (0..count * count).map(|i| (i / count, i % count)).filter(|(u, v)| u != v) {
        faults.extend(pair_faults(sheet, &roads, u, v).into_iter().map(|n| (0, u, v, n)));
    }
    for block in &sheet.blocks {
        let own = block.place as usize;
        let cover = (0..count).filter(|&v| v != own && covers(block, &sheet.places[v])).count();
        if cover == 0 {
            faults.push((1, own, 0, IDLE_BLOCK));
        }
    }
    faults.iter().min().map_or(ACCEPTED, |fault| fault.3)
}
