//! The calls that are made on a sheet: q, k and direction in and out of range, and slices at, about and far from their
//! limits.

use crate::ask::Ask;
use crate::call::Call;
use crate::guarded::Guard;
use crate::inputs::draw::{any_direction, ask, NO_DIRECTIONS};
use crate::inputs::rng::Rng;
use crate::rules::asked::Asked;
use crate::rules::limits::*;
use crate::rules::sheet::Sheet;

/// What the lengths of a sheet's slices are measured by.
pub struct Sizes {
    places: usize,
    offices: usize,
}

impl Sizes {
    /// Those of the counts; a sheet without them is asked as if it were small.
    pub fn of(sheet: Option<&Sheet>) -> Sizes {
        sheet.map_or(Sizes { places: 3, offices: 2 }, |s| Sizes { places: s.places.len(), offices: s.offices.len() })
    }

    fn distances(&self) -> usize {
        WORD_BYTES * self.places * self.places
    }

    /// Of the answer, the working slice and the counts.
    fn of_question(&self, k: u32) -> [usize; 3] {
        let words = [ANSWER_WORDS * (k as usize).min(self.offices + 1), WORKING_WORDS * self.offices, COUNT_WORDS];
        words.map(|words| words * LONG_WORD_BYTES)
    }
}

fn call(rng: &mut Rng, ask: Ask) -> Call {
    let guards = [(); 3].map(|()| rng.pick(&Guard::ALL));
    Call { ask, salt: rng.next(), guards }
}

/// A check whose slice is long enough.
pub fn checked(rng: &mut Rng, sizes: &Sizes) -> Call {
    let length = enough(rng, sizes.distances());
    call(rng, Ask::Check(length))
}

/// A check whose slice is too short.
pub fn check_short(rng: &mut Rng, sizes: &Sizes) -> Call {
    let length = short(rng, sizes.distances());
    call(rng, Ask::Check(length))
}

/// A question of which no slice is too short.
pub fn question_with_room(rng: &mut Rng, sizes: &Sizes, asked: Asked) -> Call {
    let lengths = sizes.of_question(asked.k).map(|length| enough(rng, length));
    call(rng, Ask::Question(asked, lengths))
}

/// A question of which mostly no slice is too short, or one of them, or all.
pub fn question(rng: &mut Rng, sizes: &Sizes, asked: Asked) -> Call {
    let exact = sizes.of_question(asked.k);
    let mut lengths = exact.map(|length| enough(rng, length));
    let changed = rng.below(9);
    for slice in 0..exact.len() {
        if changed == slice || changed == exact.len() {
            lengths[slice] = short(rng, exact[slice]);
        }
    }
    call(rng, Ask::Question(asked, lengths))
}

/// What is asked of a sheet: mostly valid, else at the edges of the ranges and of the words.
pub fn asked(rng: &mut Rng, sheet: Option<&Sheet>, sizes: &Sizes) -> Asked {
    if let (Some(sheet), true) = (sheet, rng.chance(13)) {
        return ask(rng, sheet);
    }
    let (places, offices) = (sizes.places as u32, sizes.offices as u32);
    let q = rng.pick(&[0, 0, places / 2, places - 1, places - 1, places, places + 1, 1 << 31, u32::MAX]);
    // 40 × 2^27 is no 32-bit number any more, and the low 32 bits of 40 × 2^29 are 0.
    let k = rng.pick(&[0, 1, 1, offices, offices, offices, offices + 1, 1 << 27, 1 << 29, u32::MAX]);
    let direction = any_direction(rng);
    Asked { q, k, direction: if rng.chance(2) { rng.pick(&NO_DIRECTIONS) } else { direction } }
}

fn enough(rng: &mut Rng, exact: usize) -> usize {
    match rng.below(8) {
        0..=3 => exact,
        4 => exact + 1,
        5 | 6 => exact + 2 + rng.below(14),
        _ => exact + 1_000 + rng.below(9_000),
    }
}

/// Under the limit where that is not 0: by one byte, by a word, by a fifth, by most or by all. Less a fifth, an answer has
/// four words for each office.
fn short(rng: &mut Rng, exact: usize) -> usize {
    match rng.below(9) {
        0..=2 => exact.saturating_sub(1),
        3 => exact.saturating_sub(WORD_BYTES),
        4 => exact.saturating_sub(LONG_WORD_BYTES),
        5 => exact / ANSWER_WORDS * (ANSWER_WORDS - 1),
        6 => rng.below(exact),
        7 => rng.below(exact.min(LONG_WORD_BYTES)),
        _ => 0,
    }
}
