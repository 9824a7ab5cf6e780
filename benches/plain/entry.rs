//! What every check and every question begins with, once the layout was looked at.

use crate::plain::sections::Sections;
use crate::rules::asked::Asked;
use crate::rules::limits::DIRECTIONS;
use crate::rules::question::Outcome;
use crate::rules::refusal::*;

/// The check: 10, or what is made of the sections and a table that has a word for each pair.
pub fn checked(
    laid: Result<Sections, Number>,
    distances: &mut [u32],
    judge: impl FnOnce(&Sections, &mut [u32]) -> Number,
) -> Number {
    let sections = match laid {
        Ok(sections) => sections,
        Err(number) => return number,
    };
    let area = sections.place_count() * sections.place_count();
    match distances.get_mut(..area) {
        Some(table) => judge(&sections, table),
        None => SHORT_DISTANCES,
    }
}

/// The question: 7, 8, or what the walk comes to, which gives its refinements.
pub fn asked(
    laid: Result<Sections, Number>,
    asked: Asked,
    walk: impl FnOnce(&Sections) -> Result<u64, Number>,
) -> Outcome {
    let walked = laid.and_then(|sections| {
        if asked.q as usize >= sections.place_count() || !DIRECTIONS.contains(&asked.direction) {
            return Err(BAD_Q_OR_DIRECTION);
        }
        if asked.k == 0 || asked.k as usize > sections.office_count() {
            return Err(BAD_K);
        }
        walk(&sections)
    });
    match walked {
        Ok(refinements) => Outcome { number: ACCEPTED, count: u64::from(asked.k), refinements },
        Err(number) => Outcome::refused(number),
    }
}
