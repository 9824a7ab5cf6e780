//! The numbers of the paper, each standing once under a name.

use std::ops::RangeInclusive;

pub const WORD_BYTES: usize = 4;
pub const LONG_WORD_BYTES: usize = 8;

// Counts a section may have.
pub const PLACES: RangeInclusive<u32> = 1..=1_024;
pub const STAGES: RangeInclusive<u32> = 0..=8_192;
pub const BLOCKS: RangeInclusive<u32> = 0..=262_144;
pub const OFFICES: RangeInclusive<u32> = 0..=4_096;

// Words of a record.
pub const PLACE_WORDS: usize = 3;
pub const STAGE_WORDS: usize = 3;
pub const BLOCK_WORDS: usize = 6;
pub const OFFICE_WORDS: usize = 1;

// Layout rules.
pub const TOP_LEVEL: u32 = 10;
pub const GRID_SIDE: u32 = 1 << TOP_LEVEL;
pub const LENGTHS: RangeInclusive<u32> = 1..=65_535;
pub const LEAVING_MOST: usize = 8;

// Lengths and ratios.
pub const RATIO_UNIT: u64 = 4_096;
pub const CROW_SCALE: u64 = 4_096;

// Directions of a question: from its place to the offices, and from the offices to its place.
pub const OUTWARD: u32 = 0;
pub const INWARD: u32 = 1;
pub const DIRECTIONS: [u32; 2] = [OUTWARD, INWARD];

// Slices lent to a question, in long words; a C host lends the counts too.
pub const ANSWER_WORDS: usize = 5;
pub const WORKING_WORDS: usize = 6;
pub const COUNT_WORDS: usize = 2;

// The program's own limits.
pub const PROGRAM_HEAD_WORDS: usize = 3;
pub const PROGRAM_HEAD_BYTES: usize = PROGRAM_HEAD_WORDS * WORD_BYTES;
pub const PROGRAM_SHEET_BYTES: usize = 65_536;
pub const PROGRAM_PLACES: usize = 128;
pub const PROGRAM_OFFICES: usize = 1_024;
