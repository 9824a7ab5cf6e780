//! The refusal numbers of the paper under names; 0 is acceptance.

pub type Number = u32;

pub const ACCEPTED: Number = 0;
pub const CUT_SHORT: Number = 1;
pub const BAD_COUNT: Number = 2;
pub const BAD_PLACES: Number = 3;
pub const BAD_STAGES: Number = 4;
pub const BAD_BLOCKS: Number = 5;
pub const BAD_OFFICES: Number = 6;
pub const BAD_Q_OR_DIRECTION: Number = 7;
pub const BAD_K: Number = 8;
pub const SHORT_SLICES: Number = 9;
pub const SHORT_DISTANCES: Number = 10;
pub const UNREACHED: Number = 11;
pub const IN_NO_BLOCK: Number = 12;
pub const WRONG_COLOUR: Number = 13;
pub const UNTRUE_RATIO: Number = 14;
pub const IDLE_BLOCK: Number = 15;
pub const WALK_TOO_LONG: Number = 16;
pub const WALK_NO_BLOCK: Number = 17;
pub const WALK_EMPTY: Number = 18;
pub const PROGRAM_LIMIT: Number = 20;

pub const LAST: Number = PROGRAM_LIMIT;

/// Every number that refuses.
pub fn refusals() -> impl Iterator<Item = Number> {
    (CUT_SHORT..=WALK_EMPTY).chain([PROGRAM_LIMIT])
}
