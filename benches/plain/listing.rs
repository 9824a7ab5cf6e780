//! The question by the library's method: a tournament of the low ends, and for each refinement a search over all blocks
//! at the old via and one at the new.

use crate::plain::blocks::Blocks;
use crate::plain::entry::asked;
use crate::plain::layout;
use crate::plain::measure::{crow, Cell};
use crate::plain::roads::Roads;
use crate::plain::sections::Sections;
use crate::plain::tournament::Tournament;
use crate::plain::trail::{key, office_of, Ends, Trail};
use crate::rules::asked::Asked;
use crate::rules::limits::ANSWER_WORDS;
use crate::rules::question::Outcome;
use crate::rules::refusal::*;

struct Walk<'a> {
    asked: Asked,
    sections: &'a Sections<'a>,
    blocks: Blocks<'a>,
    roads: Roads,
    trails: Vec<Trail>,
    waiting: Tournament,
}

pub fn question(sheet: &[u8], question: Asked, answer: &mut [u64]) -> Outcome {
    asked(layout::same_method(sheet), question, |sections| Walk::start(sections, question)?.list(answer))
}

impl<'a> Walk<'a> {
    fn start(sections: &'a Sections<'a>, asked: Asked) -> Result<Walk<'a>, Number> {
        let blocks = Blocks::of(sections.blocks);
        let roads = Roads::of(sections);
        let mut trails = Vec::with_capacity(sections.office_count());
        for office in 0..sections.office_count() {
            let (via, sought) = asked.road(sections.stand(office));
            trails.push(Trail::first(via, interval(sections, blocks, via, sought)?)?);
        }
        let waiting = Tournament::of(trails.iter().enumerate().map(|(office, trail)| key(trail.low, office)));
        Ok(Walk { asked, sections, blocks, roads, trails, waiting })
    }

    /// Lists k offices, and gives the refinements made.
    fn list(mut self, answer: &mut [u64]) -> Result<u64, Number> {
        let mut refinements = 0;
        for line in answer.chunks_exact_mut(ANSWER_WORDS).take(self.asked.k as usize) {
            loop {
                let office = office_of(self.waiting.least());
                let (trail, stand) = (self.trails[office], self.sections.stand(office));
                self.waiting.change(office, u64::MAX);
                if key(trail.high, office) < self.waiting.least() {
                    line.copy_from_slice(&trail.line(office, self.sections.gazetteer(stand)));
                    break;
                }
                let trail = self.refined(trail, self.asked.road(stand).1)?;
                self.trails[office] = trail;
                self.waiting.change(office, key(trail.low, office));
                refinements += 1;
            }
        }
        Ok(refinements)
    }

    fn refined(&self, trail: Trail, v: usize) -> Result<Trail, Number> {
        if trail.stages + 1 >= self.sections.place_count() {
            return Err(WALK_TOO_LONG);
        }
        let code = Cell::of(self.sections.places, v).code();
        let b = self.blocks.covering(trail.via, code).ok_or(WALK_NO_BLOCK)?;
        let (via, length) = self.roads.stage(trail.via, self.blocks.colour(b));
        trail.onward(via, length, interval(self.sections, self.blocks, via, v)?)
    }
}

fn interval(sections: &Sections, blocks: Blocks, u: usize, v: usize) -> Result<Ends, Number> {
    if u == v {
        return Ok((0, 0));
    }
    let (from, to) = (Cell::of(sections.places, u), Cell::of(sections.places, v));
    let b = blocks.covering(u, to.code()).ok_or(WALK_NO_BLOCK)?;
    Ok(blocks.ends(b, crow(from, to)))
}
