//! The walk told another way: each named road is written out with the interval after every stage,
//! and the listing only moves along those. Checked sheets or not.

use crate::rules::asked::Asked;
use crate::rules::limits::ANSWER_WORDS;
use crate::rules::refusal::*;
use crate::rules::sheet::Sheet;
use crate::selftest::plain::{ends_between, stage_towards};
use std::collections::{BTreeMap, BTreeSet};

/// The ends kept after so many stages, or the refusal that is met there.
type Ends = Result<(i128, i128), Number>;

pub struct Road {
    pub ends: Vec<Ends>,
    pub arrives: bool,
}

impl Road {
    pub fn stages(&self) -> u64 {
        self.ends.len() as u64 - 1
    }

    /// After the last written state only "too many refinements" is left.
    fn after(&self, stages: usize) -> Ends {
        self.ends.get(stages).copied().unwrap_or(Err(WALK_TOO_LONG))
    }
}

/// From q to an office's place outward (0), from there to q inward (1).
pub fn from_and_to(asked: Asked, stand: usize) -> (usize, usize) {
    let ends = [asked.q as usize, stand];
    let first = asked.direction as usize;
    (ends[first], ends[1 - first])
}

/// The named road between two places, as far as it can be followed in N-1 stages.
pub fn road(sheet: &Sheet, from: usize, sought: usize) -> Road {
    let (mut via, mut walked) = (from, 0);
    let mut road = Road { ends: Vec::new(), arrives: false };
    let mut kept = (0, i128::MAX);
    while road.ends.len() < sheet.places.len() {
        let Some(here) = ends_between(sheet, via, sought) else {
            road.ends.push(Err(WALK_NO_BLOCK));
            return road;
        };
        kept = (kept.0.max(here.0 + walked), kept.1.min(here.1 + walked));
        road.ends.push(if kept.0 > kept.1 { Err(WALK_EMPTY) } else { Ok(kept) });
        road.arrives = via == sought;
        if road.arrives || kept.0 > kept.1 {
            return road;
        }
        let stage = stage_towards(sheet, via, sought);
        walked += i128::from(stage.length);
        via = stage.head as usize;
    }
    road
}

/// What a valid question lists, with its total, or its refusal; the layout holds.
pub fn listing(sheet: &Sheet, asked: Asked) -> Result<(Vec<u64>, u64), Number> {
    let towns: BTreeSet<u32> = sheet.offices.iter().copied().collect();
    let road_at = |stand: u32| {
        let (from, to) = from_and_to(asked, stand as usize);
        (stand, road(sheet, from, to))
    };
    let roads: BTreeMap<u32, Road> = towns.into_iter().map(road_at).collect();
    let road_of = |office: usize| &roads[&sheet.offices[office]];
    let mut waiting = BTreeSet::new();
    let mut stages = vec![0; sheet.offices.len()];
    for office in 0..sheet.offices.len() {
        waiting.insert((road_of(office).after(0)?.0, office));
    }
    let (mut list, mut total) = (Vec::new(), 0);
    while list.len() < asked.k as usize * ANSWER_WORDS {
        let (_, leader) = waiting.pop_first().expect("k offices");
        let (low, high) = road_of(leader).after(stages[leader])?;
        if waiting.first().is_none_or(|&next| (high, leader) < next) {
            let stand = &sheet.places[sheet.offices[leader] as usize];
            list.extend([leader as u64, low as u64, high as u64, stages[leader] as u64, stand.gazetteer.into()]);
        } else {
            stages[leader] += 1;
            total += 1;
            waiting.insert((road_of(leader).after(stages[leader])?.0, leader));
        }
    }
    Ok((list, total))
}
