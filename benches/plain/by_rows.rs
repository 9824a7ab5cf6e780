//! The check by the fastest means found: the road lengths from each place, a row of the table, and then the places of
//! the row in the order of their codes beside the blocks, which are in that order too. Nothing is searched.

use crate::plain::blocks::Blocks;
use crate::plain::entry::checked;
use crate::plain::layout;
use crate::plain::measure::{quick_crow, Cell};
use crate::plain::roads::{Roads, NO_ROAD};
use crate::plain::sections::Sections;
use crate::rules::refusal::*;

struct Sweep<'a> {
    blocks: Blocks<'a>,
    roads: Roads,
    table: &'a [u32],
    cells: Vec<Cell>,
    /// Code and place, by code.
    order: Vec<(u32, usize)>,
    /// The next block; those of the places before are gone through.
    next: usize,
    /// Some block covered no place other than its own.
    idle: bool,
}

/// The first faulty pair of a row: its second place, and what is due.
type Fault = Option<(usize, Number)>;

pub fn check(sheet: &[u8], distances: &mut [u32]) -> Number {
    checked(layout::best(sheet), distances, judge)
}

fn judge(sections: &Sections, table: &mut [u32]) -> Number {
    let roads = Roads::of(sections);
    roads.all_pairs(table);
    if table.contains(&NO_ROAD) {
        table.fill(0);
        return UNREACHED;
    }
    let cells: Vec<Cell> = (0..roads.places()).map(|v| Cell::of(sections.places, v)).collect();
    let mut order: Vec<(u32, usize)> = cells.iter().enumerate().map(|(v, cell)| (cell.code(), v)).collect();
    order.sort_unstable();
    let blocks = Blocks::of(sections.blocks);
    let mut sweep = Sweep { blocks, roads, table, cells, order, next: 0, idle: false };
    for u in 0..sweep.cells.len() {
        if let Some((_, number)) = sweep.row_fault(u) {
            return number;
        }
    }
    if sweep.idle {
        IDLE_BLOCK
    } else {
        ACCEPTED
    }
}

/// Of two faults of a row, that of the lower place.
#[inline(always)]
fn earlier(fault: Fault, v: usize, number: Number) -> Fault {
    match fault {
        Some((before, _)) if before < v => fault,
        _ => Some((v, number)),
    }
}

impl Sweep<'_> {
    fn row_fault(&mut self, u: usize) -> Fault {
        let mut fault = None;
        let mut at = 0;
        while self.next < self.blocks.count() && self.blocks.place(self.next) == u {
            let codes = self.blocks.codes(self.next);
            let before = at;
            at = self.upto(at, codes.start);
            fault = self.bare(u, before, at, fault);
            let covered = at;
            at = self.upto(at, codes.end);
            fault = self.covered(u, covered, at, fault);
            self.next += 1;
        }
        self.bare(u, at, self.order.len(), fault)
    }

    /// How many places have a code below this one, of which so many are known.
    #[inline(always)]
    fn upto(&self, known: usize, code: u32) -> usize {
        known + self.order[known..].iter().take_while(|(other, _)| *other < code).count()
    }

    /// Places in no block.
    #[inline(always)]
    fn bare(&self, u: usize, from: usize, to: usize, mut fault: Fault) -> Fault {
        for &(_, v) in &self.order[from..to] {
            if v != u {
                fault = earlier(fault, v, IN_NO_BLOCK);
            }
        }
        fault
    }

    /// Places in the next block.
    #[inline(always)]
    fn covered(&mut self, u: usize, from: usize, to: usize, mut fault: Fault) -> Fault {
        let places = self.cells.len();
        let (row, b) = (&self.table[places * u..][..places], self.next);
        let (head, length) = self.roads.stage(u, self.blocks.colour(b));
        let onward = &self.table[places * head..][..places];
        let mut used = false;
        for &(_, v) in &self.order[from..to] {
            if v == u {
                continue;
            }
            used = true;
            if length + onward[v] != row[v] {
                fault = earlier(fault, v, WRONG_COLOUR);
            } else if !self.blocks.ratios_hold(b, quick_crow(self.cells[u], self.cells[v]), row[v]) {
                fault = earlier(fault, v, UNTRUE_RATIO);
            }
        }
        self.idle |= !used;
        fault
    }
}
