//! The library, by its two C functions and nothing else, made safe.

use crate::atlas::{atlas_check, atlas_question};
use crate::rules::asked::Asked;
use crate::rules::host::long_words_of;
use crate::rules::limits::{ANSWER_WORDS, COUNT_WORDS, LONG_WORD_BYTES, WORKING_WORDS};
use crate::rules::question::Outcome;
use crate::rules::refusal::{Number, ACCEPTED, BAD_Q_OR_DIRECTION};

const COUNTS_BYTES: usize = LONG_WORD_BYTES * COUNT_WORDS;

/// What a question is lent: bytes for its list, its work and its two counts.
pub struct Lent {
    answer: Vec<u8>,
    working: Vec<u8>,
    counts: [u8; COUNTS_BYTES],
}

impl Lent {
    /// As much as a question for k of so many offices asks for.
    pub fn to(k: usize, offices: usize) -> Lent {
        Lent {
            answer: vec![0; LONG_WORD_BYTES * ANSWER_WORDS * k],
            working: vec![0; LONG_WORD_BYTES * WORKING_WORDS * offices],
            counts: [0; COUNTS_BYTES],
        }
    }

    pub fn list(&self) -> Vec<u64> {
        long_words_of(&self.answer)
    }

    pub fn outcome(&self, number: Number) -> Outcome {
        let counts = long_words_of(&self.counts);
        Outcome { number, count: counts[0], refinements: counts[1] }
    }
}

pub fn check(sheet: &[u8], distances: &mut [u8]) -> Number {
    // SAFETY: each pointer goes with the length of its slice, and no two slices overlap.
    unsafe { atlas_check(sheet.as_ptr(), sheet.len(), distances.as_mut_ptr(), distances.len()) }
}

pub fn question(sheet: &[u8], asked: Asked, lent: &mut Lent) -> Number {
    // SAFETY: as above.
    unsafe {
        atlas_question(
            sheet.as_ptr(),
            sheet.len(),
            asked.q,
            asked.k,
            asked.direction,
            lent.answer.as_mut_ptr(),
            lent.answer.len(),
            lent.working.as_mut_ptr(),
            lent.working.len(),
            lent.counts.as_mut_ptr(),
            lent.counts.len(),
        )
    }
}

/// The layout rules alone: no sheet has this place, which is refused right after them.
pub fn layout(sheet: &[u8], lent: &mut Lent) -> Number {
    match question(sheet, Asked::outward(u32::MAX, 1), lent) {
        BAD_Q_OR_DIRECTION => ACCEPTED,
        number => number,
    }
}
