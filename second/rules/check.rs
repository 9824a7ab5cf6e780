//! The check: the layout, then whether the sheet tells the truth (refusals 10 to 15).

use crate::rules::layout;
use crate::rules::map::Map;
use crate::rules::measure::ratio_is_true;
use crate::rules::refusal::*;
use crate::rules::roads::Roads;

pub fn check(bytes: &[u8], distances: &mut [u32]) -> Number {
    let sheet = match layout::read(bytes) {
        Ok(sheet) => sheet,
        Err(number) => return number,
    };
    let pairs = sheet.places.len() * sheet.places.len();
    let Some(lent) = distances.get_mut(..pairs) else {
        return SHORT_DISTANCES;
    };
    let roads = Roads::of(&sheet);
    if !roads.all_reached() {
        lent.fill(0);
        return UNREACHED;
    }
    for (word, &distance) in lent.iter_mut().zip(roads.in_order()) {
        *word = u32::try_from(distance).expect("the layout keeps every distance to 67,042,305");
    }
    judge(&Map::of(&sheet), &roads)
}

/// All pairs of all places come before any idle block.
fn judge(map: &Map, roads: &Roads) -> Number {
    for u in 0..map.places() {
        for v in 0..map.places() {
            let fault = if u == v { ACCEPTED } else { pair_fault(map, roads, u, v) };
            if fault != ACCEPTED {
                return fault;
            }
        }
    }
    idle_fault(map)
}

fn pair_fault(map: &Map, roads: &Roads, u: usize, v: usize) -> Number {
    let Some(block) = map.covering(u, v) else {
        return IN_NO_BLOCK;
    };
    let stage = map.stage_named(block);
    let distance = roads.between(u, v);
    if u64::from(stage.length) + roads.between(stage.head as usize, v) != distance {
        return WRONG_COLOUR;
    }
    if !ratio_is_true(block, map.crow(u, v), distance) {
        return UNTRUE_RATIO;
    }
    ACCEPTED
}

fn idle_fault(map: &Map) -> Number {
    for block in &map.sheet.blocks {
        let own = block.place as usize;
        if !(0..map.places()).any(|v| v != own && map.covers(block, v)) {
            return IDLE_BLOCK;
        }
    }
    ACCEPTED
}
