//! The check by the library's method: the road lengths to each place, a column of the table, and for each pair of it a
//! search over all blocks.

use crate::plain::blocks::Blocks;
use crate::plain::entry::checked;
use crate::plain::layout;
use crate::plain::measure::{crow, Cell};
use crate::plain::roads::{Roads, NO_ROAD};
use crate::plain::sections::Sections;
use crate::plain::tournament::Tournament;
use crate::rules::refusal::*;

struct Survey<'a> {
    places: &'a [u8],
    blocks: Blocks<'a>,
    roads: Roads,
    /// Which blocks cover a place other than their own.
    used: Vec<bool>,
}

/// The first faulty pair so far, by its first place.
struct Fault {
    place: usize,
    number: Number,
}

pub fn check(sheet: &[u8], distances: &mut [u32]) -> Number {
    checked(layout::same_method(sheet), distances, judge)
}

fn judge(sections: &Sections, table: &mut [u32]) -> Number {
    let places = sections.place_count();
    let blocks = Blocks::of(sections.blocks);
    let roads = Roads::of(sections);
    let backward = roads.reversed();
    let mut survey = Survey { places: sections.places, blocks, roads, used: vec![false; blocks.count()] };
    let mut column = vec![0; places];
    let mut waiting = Tournament::of((0..places).map(|_| u64::MAX));
    let mut fault = Fault { place: places, number: ACCEPTED };
    for v in 0..places {
        backward.lengths_by_tournament(v, &mut column, &mut waiting);
        if column.contains(&NO_ROAD) {
            table.fill(0);
            return UNREACHED;
        }
        for (row, &length) in table.chunks_exact_mut(places).zip(&column) {
            row[v] = length;
        }
        survey.go_through(v, &column, &mut fault);
    }
    let idle = fault.number == ACCEPTED && survey.used.contains(&false);
    if idle {
        IDLE_BLOCK
    } else {
        fault.number
    }
}

impl Survey<'_> {
    /// The pairs that v ends, as far as an earlier fault leaves them to be looked at.
    fn go_through(&mut self, v: usize, column: &[u32], fault: &mut Fault) {
        let cell = Cell::of(self.places, v);
        let code = cell.code();
        for u in (0..fault.place).filter(|&u| u != v) {
            let number = self.pair_fault(u, cell, code, column);
            if number != ACCEPTED {
                *fault = Fault { place: u, number };
                return;
            }
        }
    }

    #[inline(always)]
    fn pair_fault(&mut self, u: usize, cell: Cell, code: u32, column: &[u32]) -> Number {
        let Some(b) = self.blocks.covering(u, code) else {
            return IN_NO_BLOCK;
        };
        self.used[b] = true;
        let (head, length) = self.roads.stage(u, self.blocks.colour(b));
        if length + column[head] != column[u] {
            return WRONG_COLOUR;
        }
        if !self.blocks.ratios_hold(b, crow(Cell::of(self.places, u), cell), column[u]) {
            return UNTRUE_RATIO;
        }
        ACCEPTED
    }
}
