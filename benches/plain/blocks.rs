//! The blocks of a sheet as its bytes have them, in the order of place and code: which covers a place, and what it says.

use crate::plain::sections::{records_before, word, BLOCK_BYTES};
use crate::rules::limits::{BLOCK_WORDS, RATIO_UNIT, TOP_LEVEL};
use std::ops::Range;

#[derive(Clone, Copy)]
pub struct Blocks<'a> {
    records: &'a [u8],
}

#[inline(always)]
fn key(place: u32, code: u32) -> u32 {
    (place << (2 * TOP_LEVEL)) + code
}

impl<'a> Blocks<'a> {
    pub fn of(records: &'a [u8]) -> Blocks<'a> {
        Blocks { records }
    }

    pub fn count(self) -> usize {
        self.records.len() / BLOCK_BYTES
    }

    #[inline(always)]
    fn word(self, b: usize, i: usize) -> u32 {
        word(self.records, BLOCK_WORDS * b + i)
    }

    #[inline(always)]
    pub fn place(self, b: usize) -> usize {
        self.word(b, 0) as usize
    }

    #[inline(always)]
    fn key(self, b: usize) -> u32 {
        key(self.word(b, 0), self.word(b, 1))
    }

    /// The codes that a block covers.
    #[inline(always)]
    pub fn codes(self, b: usize) -> Range<u32> {
        let first = self.word(b, 1);
        first..first + (1 << (2 * self.word(b, 2)))
    }

    #[inline(always)]
    pub fn colour(self, b: usize) -> usize {
        self.word(b, 3) as usize
    }

    #[inline(always)]
    pub fn ratios(self, b: usize) -> (u64, u64) {
        (u64::from(self.word(b, 4)), u64::from(self.word(b, 5)))
    }

    /// low × c ≤ unit × D ≤ high × c.
    #[inline(always)]
    pub fn ratios_hold(self, b: usize, crow: u64, distance: u32) -> bool {
        let ((low, high), scaled) = (self.ratios(b), RATIO_UNIT * u64::from(distance));
        low * crow <= scaled && scaled <= high * crow
    }

    /// The low end rounded up, the high end rounded down.
    #[inline(always)]
    pub fn ends(self, b: usize, crow: u64) -> (u64, u64) {
        let (low, high) = self.ratios(b);
        ((low * crow).div_ceil(RATIO_UNIT), high * crow / RATIO_UNIT)
    }

    /// The block of u that covers the code, by a search over all blocks.
    #[inline(always)]
    pub fn covering(self, u: usize, code: u32) -> Option<usize> {
        self.covering_among(0..self.count(), u, code)
    }

    /// The same by a search over these blocks alone.
    #[inline(always)]
    pub fn covering_among(self, among: Range<usize>, u: usize, code: u32) -> Option<usize> {
        let asked = key(u as u32, code);
        let (mut last, mut span) = (among.start, among.len());
        while span > 1 {
            let half = span / 2;
            let middle = last + half;
            last = if self.key(middle) <= asked { middle } else { last };
            span -= half;
        }
        let found = span == 1 && self.place(last) == u && self.codes(last).contains(&code);
        found.then_some(last)
    }

    /// Which blocks are those of u.
    pub fn tree(self, u: usize) -> Range<usize> {
        let before = |place| records_before(self.records, BLOCK_BYTES, place);
        before(u)..before(u + 1)
    }
}
