//! The same listing by the fastest means found: one first interval for all offices of a place, outward by a search over
//! q's own blocks, each block kept for the refinement that follows, and the few stages that are walked looked up in the
//! sheet.

use crate::plain::blocks::Blocks;
use crate::plain::entry::asked;
use crate::plain::layout;
use crate::plain::measure::{quick_crow, Cell};
use crate::plain::sections::{records_before, word, Sections, STAGE_BYTES};
use crate::plain::trail::{key, office_of, Trail};
use crate::rules::asked::Asked;
use crate::rules::limits::{ANSWER_WORDS, OUTWARD};
use crate::rules::question::Outcome;
use crate::rules::refusal::*;
use std::cmp::Reverse;
use std::collections::BinaryHeap;
use std::ops::Range;

/// A trail, and the block that gave its interval; none needed where it has arrived.
#[derive(Clone, Copy)]
struct Slot {
    trail: Trail,
    block: usize,
}

struct Walk<'a> {
    asked: Asked,
    sections: &'a Sections<'a>,
    blocks: Blocks<'a>,
    slots: Vec<Slot>,
    waiting: BinaryHeap<Reverse<u64>>,
}

pub fn question(sheet: &[u8], question: Asked, answer: &mut [u64]) -> Outcome {
    asked(layout::best(sheet), question, |sections| Walk::start(sections, question)?.list(answer))
}

impl<'a> Walk<'a> {
    fn start(sections: &'a Sections<'a>, asked: Asked) -> Result<Walk<'a>, Number> {
        let blocks = Blocks::of(sections.blocks);
        let offices = sections.office_count();
        let mut walk =
            Walk { asked, sections, blocks, slots: Vec::with_capacity(offices), waiting: BinaryHeap::new() };
        // Inward each office has a tree of its own, and to find that takes as long as to search all blocks.
        let among = if asked.direction == OUTWARD { blocks.tree(asked.q as usize) } else { 0..blocks.count() };
        let mut keys = Vec::with_capacity(offices);
        // By the place where an office stands.
        let mut firsts = vec![None; sections.place_count()];
        for office in 0..offices {
            let stand = sections.stand(office);
            let slot = match firsts[stand] {
                Some(slot) => slot,
                None => walk.first(among.clone(), stand)?,
            };
            firsts[stand] = Some(slot);
            walk.slots.push(slot);
            keys.push(Reverse(key(slot.trail.low, office)));
        }
        walk.waiting = BinaryHeap::from(keys);
        Ok(walk)
    }

    /// How each office at this place begins.
    #[inline(always)]
    fn first(&self, among: Range<usize>, stand: usize) -> Result<Slot, Number> {
        let (via, sought) = self.asked.road(stand);
        let (ends, block) = self.interval(among, via, sought)?;
        Ok(Slot { trail: Trail::first(via, ends)?, block })
    }

    /// The ends, and the block among these that gives them.
    #[inline(always)]
    fn interval(&self, among: Range<usize>, u: usize, v: usize) -> Result<((u64, u64), usize), Number> {
        if u == v {
            return Ok(((0, 0), 0));
        }
        let (from, to) = (Cell::of(self.sections.places, u), Cell::of(self.sections.places, v));
        let b = self.blocks.covering_among(among, u, to.code()).ok_or(WALK_NO_BLOCK)?;
        Ok((self.blocks.ends(b, quick_crow(from, to)), b))
    }

    /// Lists k offices, and gives the refinements made.
    fn list(mut self, answer: &mut [u64]) -> Result<u64, Number> {
        let mut refinements = 0;
        for line in answer.chunks_exact_mut(ANSWER_WORDS).take(self.asked.k as usize) {
            loop {
                let office = office_of(self.waiting.as_slice()[0].0);
                let (slot, stand) = (self.slots[office], self.sections.stand(office));
                if key(slot.trail.high, office) < self.least_other() {
                    line.copy_from_slice(&slot.trail.line(office, self.sections.gazetteer(stand)));
                    self.waiting.pop();
                    break;
                }
                let slot = self.refined(slot, self.asked.road(stand).1)?;
                self.slots[office] = slot;
                *self.waiting.peek_mut().expect("the leader") = Reverse(key(slot.trail.low, office));
                refinements += 1;
            }
        }
        Ok(refinements)
    }

    /// The least of all but the leader: one of the two below it in the heap.
    #[inline(always)]
    fn least_other(&self) -> u64 {
        let others = self.waiting.as_slice().iter().skip(1).take(2);
        others.map(|Reverse(key)| *key).min().unwrap_or(u64::MAX)
    }

    fn refined(&self, slot: Slot, v: usize) -> Result<Slot, Number> {
        let trail = slot.trail;
        if trail.stages + 1 >= self.sections.place_count() {
            return Err(WALK_TOO_LONG);
        }
        let leaving = records_before(self.sections.stages, STAGE_BYTES, trail.via);
        let stage = &self.sections.stages[STAGE_BYTES * (leaving + self.blocks.colour(slot.block))..];
        let (via, length) = (word(stage, 1) as usize, word(stage, 2));
        let (ends, block) = self.interval(0..self.blocks.count(), via, v)?;
        Ok(Slot { trail: trail.onward(via, length, ends)?, block })
    }
}
