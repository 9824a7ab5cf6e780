//! Self test: the longest walks, held against the oracle and against numbers worked out from the paper; reading 15.

use crate::inputs::longest;
use crate::inputs::longest::case::{Case, Question};
use crate::inputs::rng::Rng;
use crate::rules::check::check;
use crate::rules::limits::DIRECTIONS;
use crate::rules::question::Outcome;
use crate::rules::refusal::ACCEPTED;
use crate::selftest::largest::Largest;
use crate::selftest::probe::question_asked;
use crate::selftest::random::question_due;
use crate::tally::Tally;

pub fn run(tally: &mut Tally, seed: u64) {
    let mut largest = [Largest::default(); DIRECTIONS.len()];
    for case in longest::all(&mut Rng::new(seed, 0)) {
        checked(tally, &case);
        for question in &case.questions {
            let met = &mut largest[question.asked.way()];
            *met = met.or(asked(tally, &case, question));
        }
    }
    // 1,023 × 65,535; (2^32-1) × 92,591 / 4,096 rounded up; and rounded down, with the walked length.
    let due = Largest { walked: 67_042_305, end: 97_088_700_394, sum: 97_155_742_698 };
    tally.same("the largest numbers of all walks", largest, [due; DIRECTIONS.len()]);
}

fn checked(tally: &mut Tally, case: &Case) {
    let number = check(&case.map.to_bytes(), &mut vec![0; case.map.places.len().pow(2)]);
    tally.met_check(number);
    tally.same(case.name, number, case.check);
}

fn asked(tally: &mut Tally, case: &Case, question: &Question) -> Largest {
    let name = format!("{}, {}, {:?}", case.name, question.asked, question.offices);
    let sheet = case.sheet(question);
    let (outcome, list) = question_asked(tally, &name, &sheet.to_bytes(), question.asked);
    tally.same(&name, (outcome, list.clone()), question_due(&sheet, question.asked));
    let due = match &question.due {
        Ok((list, total)) => {
            let count = u64::from(question.asked.k);
            (Outcome { number: ACCEPTED, count, refinements: *total }, list.concat())
        }
        Err(number) => (Outcome::refused(*number), vec![0; list.len()]),
    };
    tally.same(&name, (outcome, list), due);
    Largest::of(&sheet, question.asked)
}
