//! The four sections of a sheet, found in its bytes (refusals 1 and 2), and the words of a record.

use crate::rules::limits::*;
use crate::rules::refusal::{Number, BAD_COUNT, CUT_SHORT};
use std::ops::RangeInclusive;

pub const MOST_PLACES: usize = *PLACES.end() as usize;

pub const PLACE_BYTES: usize = PLACE_WORDS * WORD_BYTES;
pub const STAGE_BYTES: usize = STAGE_WORDS * WORD_BYTES;
pub const BLOCK_BYTES: usize = BLOCK_WORDS * WORD_BYTES;

/// The records of each section, without their counts.
pub struct Sections<'a> {
    pub places: &'a [u8],
    pub stages: &'a [u8],
    pub blocks: &'a [u8],
    pub offices: &'a [u8],
}

/// Word i of the bytes.
#[inline(always)]
pub fn word(bytes: &[u8], i: usize) -> u32 {
    let at = WORD_BYTES * i;
    u32::from_le_bytes(bytes[at..at + WORD_BYTES].try_into().expect("4 bytes"))
}

/// How many of the records, each of so many bytes, have a first word below u; they ascend by it.
pub fn records_before(records: &[u8], size: usize, u: usize) -> usize {
    let (mut first, mut end) = (0, records.len() / size);
    while first < end {
        let middle = (first + end) / 2;
        if (word(&records[size * middle..], 0) as usize) < u {
            first = middle + 1;
        } else {
            end = middle;
        }
    }
    first
}

impl<'a> Sections<'a> {
    pub fn of(sheet: &'a [u8]) -> Result<Sections<'a>, Number> {
        if !sheet.len().is_multiple_of(WORD_BYTES) {
            return Err(CUT_SHORT);
        }
        let mut rest = sheet;
        let sections = Sections {
            places: section(&mut rest, PLACES, PLACE_BYTES)?,
            stages: section(&mut rest, STAGES, STAGE_BYTES)?,
            blocks: section(&mut rest, BLOCKS, BLOCK_BYTES)?,
            offices: section(&mut rest, OFFICES, WORD_BYTES)?,
        };
        if rest.is_empty() {
            Ok(sections)
        } else {
            Err(CUT_SHORT)
        }
    }

    pub fn place_count(&self) -> usize {
        self.places.len() / PLACE_BYTES
    }

    pub fn stage_count(&self) -> usize {
        self.stages.len() / STAGE_BYTES
    }

    pub fn office_count(&self) -> usize {
        self.offices.len() / WORD_BYTES
    }

    /// The gazetteer number of place v.
    #[inline(always)]
    pub fn gazetteer(&self, v: usize) -> u32 {
        word(self.places, PLACE_WORDS * v + 2)
    }

    /// The place at which office i stands.
    #[inline(always)]
    pub fn stand(&self, i: usize) -> usize {
        word(self.offices, i) as usize
    }
}

fn section<'a>(rest: &mut &'a [u8], counts: RangeInclusive<u32>, record: usize) -> Result<&'a [u8], Number> {
    let (count, after) = rest.split_at_checked(WORD_BYTES).ok_or(CUT_SHORT)?;
    let count = word(count, 0);
    if !counts.contains(&count) {
        return Err(BAD_COUNT);
    }
    let (records, left) = after.split_at_checked(count as usize * record).ok_or(CUT_SHORT)?;
    *rest = left;
    Ok(records)
}
