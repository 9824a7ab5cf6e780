//! An office on its way to being listed, and the order in which offices wait.

use crate::rules::limits::{ANSWER_WORDS, OFFICES};
use crate::rules::refusal::{Number, WALK_EMPTY};

const MOST_OFFICES: u64 = *OFFICES.end() as u64;

/// Low and high end.
pub type Ends = (u64, u64);

#[derive(Clone, Copy)]
pub struct Trail {
    pub via: usize,
    pub walked: u64,
    pub low: u64,
    pub high: u64,
    pub stages: usize,
}

/// An end with the number of its office, in the order of (end, number).
#[inline(always)]
pub fn key(end: u64, office: usize) -> u64 {
    end * MOST_OFFICES + office as u64
}

#[inline(always)]
pub fn office_of(key: u64) -> usize {
    (key % MOST_OFFICES) as usize
}

impl Trail {
    #[inline(always)]
    pub fn first(via: usize, (low, high): Ends) -> Result<Trail, Number> {
        Trail { via, walked: 0, low, high, stages: 0 }.tested()
    }

    /// One stage further: of the interval from there and the old one the overlap is kept.
    #[inline(always)]
    pub fn onward(self, via: usize, length: u32, (low, high): Ends) -> Result<Trail, Number> {
        let walked = self.walked + u64::from(length);
        let (low, high) = (self.low.max(walked + low), self.high.min(walked + high));
        Trail { via, walked, low, high, stages: self.stages + 1 }.tested()
    }

    #[inline(always)]
    fn tested(self) -> Result<Trail, Number> {
        if self.low <= self.high {
            Ok(self)
        } else {
            Err(WALK_EMPTY)
        }
    }

    /// What is listed of an office at a place of this gazetteer number.
    pub fn line(&self, office: usize, gazetteer: u32) -> [u64; ANSWER_WORDS] {
        [office as u64, self.low, self.high, self.stages as u64, u64::from(gazetteer)]
    }
}
