//! The library's two C functions over guarded slices.

use crate::atlas::{atlas_check, atlas_question};
use crate::guarded::Guarded;
use crate::rules::asked::Asked;

pub fn check(sheet: &Guarded, distances: &mut Guarded) -> u32 {
    // SAFETY: each pointer goes with the length of its slice, and no two slices overlap.
    unsafe { atlas_check(sheet.pointer(), sheet.length(), distances.pointer(), distances.length()) }
}

pub fn question(
    sheet: &Guarded,
    asked: Asked,
    answer: &mut Guarded,
    working: &mut Guarded,
    counts: &mut Guarded,
) -> u32 {
    // SAFETY: as in check.
    unsafe {
        atlas_question(
            sheet.pointer(),
            sheet.length(),
            asked.q,
            asked.k,
            asked.direction,
            answer.pointer(),
            answer.length(),
            working.pointer(),
            working.length(),
            counts.pointer(),
            counts.length(),
        )
    }
}
