//! Quadtrees with the lowest colours and the tightest ratios: of the fewest blocks, the fullest of which are split on
//! until there are so many as wanted.

use crate::inputs::draw::trees::tightest;
use crate::inputs::full::distances::distances_from;
use crate::rules::layout::codes_covered;
use crate::rules::limits::TOP_LEVEL;
use crate::rules::map::Map;
use crate::rules::measure::code_of;
use crate::rules::sheet::{Block, Sheet};
use std::collections::BinaryHeap;
use std::ops::Range;

/// A block to be, ordered by how many places other than its own it covers.
#[derive(Clone, Copy, PartialEq, Eq, PartialOrd, Ord)]
struct Square {
    others: usize,
    own: usize,
    code: u32,
    level: u32,
    /// Where the places that it covers stand in code order.
    first: usize,
    end: usize,
}

struct Ground<'a> {
    map: Map<'a>,
    /// All places by their codes.
    order: Vec<(u32, usize)>,
    /// From each place to each.
    distances: Vec<Vec<u64>>,
    /// For each place and each other, the lowest colour that begins a shortest road.
    colours: Vec<Vec<u32>>,
}

/// So many blocks for a sheet that has places and stages.
pub fn blocks(sheet: &Sheet, wanted: usize) -> Vec<Block> {
    let ground = Ground::of(sheet);
    let mut squares = Vec::new();
    for own in 0..sheet.places.len() {
        ground.draw(&mut squares, ground.square(own, 0, TOP_LEVEL, 0..ground.order.len()));
    }
    let mut squares = ground.split_on(squares, wanted);
    squares.sort_by_key(|s| (s.own, s.code));
    squares.into_iter().map(|s| ground.block(s)).collect()
}

impl Ground<'_> {
    fn of(sheet: &Sheet) -> Ground<'_> {
        let map = Map::of(sheet);
        let mut order: Vec<(u32, usize)> = Vec::new();
        for (v, place) in sheet.places.iter().enumerate() {
            order.push((code_of(place.cell) as u32, v));
        }
        order.sort();
        let distances: Vec<Vec<u64>> = (0..map.places()).map(|u| distances_from(&map, u)).collect();
        let colours = (0..map.places()).map(|u| colours_of(&map, &distances, u)).collect();
        Ground { map, order, distances, colours }
    }

    fn square(&self, own: usize, code: u32, level: u32, covered: Range<usize>) -> Square {
        let (first, end) = (covered.start, covered.end);
        let others = self.order[covered].iter().filter(|(_, v)| *v != own).count();
        Square { others, own, code, level, first, end }
    }

    fn others(&self, square: Square) -> impl Iterator<Item = usize> + '_ {
        let covered = self.order[square.first..square.end].iter();
        covered.map(|(_, v)| *v).filter(move |&v| v != square.own)
    }

    /// The quarters that cover a place other than the tree's own.
    fn quarters(&self, square: Square) -> Vec<Square> {
        let level = square.level - 1;
        let size = codes_covered(level) as u32;
        let mut first = square.first;
        let mut quarters = Vec::new();
        for code in (0..4).map(|i| square.code + i * size) {
            let end = first + self.order[first..square.end].partition_point(|(c, _)| *c < code + size);
            quarters.push(self.square(square.own, code, level, first..end));
            first = end;
        }
        quarters.retain(|quarter| quarter.others > 0);
        quarters
    }

    /// Kept whole where its places have one colour, else handed to its quarters.
    fn draw(&self, kept: &mut Vec<Square>, square: Square) {
        let mut colours = self.others(square).map(|v| self.colours[square.own][v]);
        let Some(colour) = colours.next() else {
            return;
        };
        if colours.all(|other| other == colour) {
            kept.push(square);
            return;
        }
        for quarter in self.quarters(square) {
            self.draw(kept, quarter);
        }
    }

    /// Splits the fullest first; one whose quarters would be too many stays whole.
    fn split_on(&self, squares: Vec<Square>, wanted: usize) -> Vec<Square> {
        let mut done = Vec::new();
        let mut open = BinaryHeap::from(squares);
        while done.len() + open.len() < wanted {
            let Some(square) = open.pop() else {
                break;
            };
            let quarters = if square.others > 1 { self.quarters(square) } else { Vec::new() };
            if quarters.is_empty() || done.len() + open.len() + quarters.len() > wanted {
                done.push(square);
            } else {
                open.extend(quarters);
            }
        }
        done.extend(open);
        done
    }

    fn block(&self, square: Square) -> Block {
        let others: Vec<usize> = self.others(square).collect();
        let own = square.own;
        let (low, high) = tightest(&self.map, own, &others, |v| self.distances[own][v]);
        let colour = self.colours[own][others[0]];
        Block { place: own as u32, code: square.code, level: square.level, colour, low, high }
    }
}

/// The lowest colours that begin shortest roads from u; for u itself one that stands for nothing.
fn colours_of(map: &Map, distances: &[Vec<u64>], u: usize) -> Vec<u32> {
    let begins = |v: usize| {
        map.leaving(u).iter().position(|s| u64::from(s.length) + distances[s.head as usize][v] == distances[u][v])
    };
    let colour = |v: usize| if v == u { u32::MAX } else { begins(v).expect("every place can be reached") as u32 };
    (0..map.places()).map(colour).collect()
}
