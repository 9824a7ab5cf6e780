//! Random valid quadtrees for a net: any admissible colour, blocks kept whole or split at will.

use crate::inputs::rng::Rng;
use crate::rules::layout::codes_covered;
use crate::rules::limits::{RATIO_UNIT, TOP_LEVEL};
use crate::rules::map::Map;
use crate::rules::measure::code_of;
use crate::rules::roads::Roads;
use crate::rules::sheet::{Block, Sheet};

#[derive(Clone, Copy, PartialEq)]
pub enum Ratios {
    Tight,
    Near,
    Wide,
    Open,
}

pub const RATIO_STYLES: [Ratios; 4] = [Ratios::Tight, Ratios::Near, Ratios::Wide, Ratios::Open];

/// How the quadtrees of one sheet are drawn up.
#[derive(Clone, Copy)]
pub struct Habit {
    /// How often of sixteen a block is split although it could be kept.
    pub split: usize,
    /// How often of sixteen the ratio style is taken rather than the tightest ratios.
    pub loosen: usize,
    pub ratios: Ratios,
}

struct Tree<'a> {
    map: &'a Map<'a>,
    roads: &'a Roads,
    own: usize,
    habit: Habit,
    blocks: Vec<Block>,
}

/// Blocks for a sheet that has places and stages.
pub fn blocks(rng: &mut Rng, sheet: &Sheet, habit: Habit) -> Vec<Block> {
    let (map, roads) = (Map::of(sheet), Roads::of(sheet));
    let mut blocks = Vec::new();
    for own in 0..map.places() {
        let mut tree = Tree { map: &map, roads: &roads, own, habit, blocks: Vec::new() };
        let others = (0..map.places()).filter(|&v| v != own).collect();
        tree.draw(rng, 0, TOP_LEVEL, others);
        blocks.extend(tree.blocks);
    }
    blocks
}

/// The tightest true ratios of a block of u for these places, whose road distances from u are given.
pub fn tightest(map: &Map, u: usize, places: &[usize], distance: impl Fn(usize) -> u64) -> (u32, u32) {
    let scaled = |v: usize| RATIO_UNIT * distance(v);
    let low = places.iter().map(|&v| scaled(v) / map.crow(u, v).0).min();
    let high = places.iter().map(|&v| scaled(v).div_ceil(map.crow(u, v).0)).max();
    (low.expect("a place") as u32, high.expect("a place") as u32)
}

impl Tree<'_> {
    /// Draws the part of the tree for this block, where these places lie in it.
    fn draw(&mut self, rng: &mut Rng, code: u32, level: u32, places: Vec<usize>) {
        if places.is_empty() {
            return;
        }
        let colours = self.colours_for(&places);
        let may_keep = !colours.is_empty();
        if may_keep && (level == 0 || !rng.chance(self.habit.split)) {
            let colour = rng.pick(&colours);
            let (low, high) = self.ratios(rng, &places);
            self.blocks.push(Block { place: self.own as u32, code, level, colour, low, high });
            return;
        }
        for (code, places) in quarters(self.map.sheet, code, level, &places) {
            self.draw(rng, code, level - 1, places);
        }
    }

    /// The colours that begin a shortest road to each of these places.
    fn colours_for(&self, places: &[usize]) -> Vec<u32> {
        let leaving = self.map.leaving(self.own).iter().enumerate();
        let begins = |head: u32, length: u32, v: usize| {
            u64::from(length) + self.roads.between(head as usize, v) == self.roads.between(self.own, v)
        };
        leaving
            .filter(|(_, s)| places.iter().all(|&v| begins(s.head, s.length, v)))
            .map(|(colour, _)| colour as u32)
            .collect()
    }

    fn ratios(&self, rng: &mut Rng, places: &[usize]) -> (u32, u32) {
        let (low, high) = tightest(self.map, self.own, places, |v| self.roads.between(self.own, v));
        if !rng.chance(self.habit.loosen) {
            return (low, high);
        }
        match self.habit.ratios {
            Ratios::Tight => (low, high),
            Ratios::Near => {
                let (down, up) = (rng.between(0, 3), rng.between(0, 3));
                (low.saturating_sub(down), high.saturating_add(up))
            }
            Ratios::Wide => (rng.between(0, low), rng.between(high, high.saturating_mul(3))),
            Ratios::Open => (rng.pick(&[0, low]), rng.pick(&[u32::MAX, high, u32::MAX - 1])),
        }
    }
}

/// The four quarters of a block, by code, each with those of the places that lie in it.
pub fn quarters(sheet: &Sheet, code: u32, level: u32, places: &[usize]) -> Vec<(u32, Vec<usize>)> {
    let size = codes_covered(level - 1) as u32;
    let quarter = |i: u32| {
        let first = code + i * size;
        let inside = |v: &usize| (first..first + size).contains(&(code_of(sheet.places[*v].cell) as u32));
        (first, places.iter().copied().filter(inside).collect())
    };
    (0..4).map(quarter).collect()
}
