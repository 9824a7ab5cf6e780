//! The largest numbers that walks meet, and what no walk passes on a sheet whose layout holds: claims, and no rules.

use crate::rules::asked::Asked;
use crate::rules::limits::{ANSWER_WORDS, WORKING_WORDS};
use crate::rules::question::{question_watched, Waiting};
use crate::rules::refusal::{Number, WALK_TOO_LONG};
use crate::rules::sheet::Sheet;
use crate::selftest::oracle::from_and_to;
use crate::selftest::plain::{ends_between, stage_towards};
use crate::tally::Tally;

// Request 8: why no refusal is needed for a length that grows too far.
const WALKED_MOST: i128 = 67_042_305;
const END_BELOW: i128 = 100_000_000_000;
const SUM_MOST: i128 = 1 << 40;

#[derive(Clone, Copy, Default, PartialEq, Debug)]
pub struct Largest {
    pub walked: i128,
    /// Before the walked length is added.
    pub end: i128,
    pub sum: i128,
}

pub fn bounds_hold(tally: &mut Tally, name: &str, sheet: &Sheet, asked: Asked) {
    let largest = Largest::of(sheet, asked);
    let within = largest.walked <= WALKED_MOST && largest.end < END_BELOW && largest.sum <= SUM_MOST;
    tally.claim(within, || format!("{name}: beyond what a walk can meet: {largest:?}"));
}

impl Largest {
    /// Over all first intervals of a valid question, and its refinements with the one that is refused.
    pub fn of(sheet: &Sheet, asked: Asked) -> Largest {
        let mut largest = Largest::default();
        for &stand in &sheet.offices {
            let (from, to) = from_and_to(asked, stand as usize);
            largest.meet(sheet, from, to, 0);
        }
        let mut watch = |before: &Waiting, after: &Result<Waiting, Number>| {
            if *after != Err(WALK_TOO_LONG) {
                largest.refine(sheet, before);
            }
        };
        let mut list = vec![0; ANSWER_WORDS * asked.k as usize];
        let mut working = vec![0; WORKING_WORDS * sheet.offices.len()];
        question_watched(&sheet.to_bytes(), asked, &mut list, &mut working, &mut watch);
        largest
    }

    pub fn or(self, other: Largest) -> Largest {
        Largest { walked: self.walked.max(other.walked), end: self.end.max(other.end), sum: self.sum.max(other.sum) }
    }

    fn refine(&mut self, sheet: &Sheet, office: &Waiting) {
        let stage = stage_towards(sheet, office.via, office.sought);
        let walked = i128::from(office.walked) + i128::from(stage.length);
        self.meet(sheet, stage.head as usize, office.sought, walked);
    }

    fn meet(&mut self, sheet: &Sheet, via: usize, sought: usize, walked: i128) {
        // Where no block covers the place sought, no end is worked out.
        let (low, high) = ends_between(sheet, via, sought).unwrap_or_default();
        let end = low.max(high);
        *self = self.or(Largest { walked, end, sum: walked + end });
    }
}
