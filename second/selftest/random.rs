//! Self test, parts 2 to 4: every input that `make` can write, held against the second readings.

use crate::inputs::damage::walk::WALK_FAULTS;
use crate::inputs::draw::{ask_well, true_sheet};
use crate::inputs::edges;
use crate::inputs::edges::edge::Due;
use crate::inputs::make;
use crate::inputs::rng::Rng;
use crate::rules::asked::{Asked, WAYS};
use crate::rules::layout;
use crate::rules::limits::*;
use crate::rules::program::{answer, parted, printed};
use crate::rules::question::Outcome;
use crate::rules::refusal::*;
use crate::rules::sheet::Sheet;
use crate::selftest::demands;
use crate::selftest::largest::bounds_hold;
use crate::selftest::oracle;
use crate::selftest::probe::{check_number, question_asked, UNTOUCHED_LONG};
use crate::selftest::truth;
use crate::tally::Tally;

/// Each edge gives the number that stands beside it, to the check and to questions alike.
pub fn edges(tally: &mut Tally) {
    for (at, edge) in edges::all().iter().enumerate() {
        let name = format!("edge {at} ({})", edge.name);
        let number = one_sheet(tally, &name, &edge.sheet, &Asked::outward(2, 2).both_ways());
        let found = match edge.due {
            Due::Layout(_) if number > BAD_OFFICES => Due::Layout(0),
            Due::Layout(_) => Due::Layout(number),
            Due::Check(_) => Due::Check(number),
        };
        tally.same(&name, found, edge.due);
    }
}

pub fn inputs(tally: &mut Tally, seed: u64, count: u64) {
    let edges = edges::all();
    let mut ways = [0; WAYS.len()];
    for index in 0..count {
        let name = format!("input {index} of seed {seed}");
        let input = make::input(seed, index, &edges);
        let text = answer(&input);
        tally.met_text(&input, &text);
        let Some((asked, sheet)) = parted(&input) else {
            tally.same(&name, text.as_str(), "refused 20\n");
            continue;
        };
        ways[asked.way()] += 1;
        let number = one_sheet(tally, &name, sheet, &[asked]);
        tally.claim(index % 2 == 1 || number == ACCEPTED, || format!("{name}: drawn true, refused by {number}"));
        program(tally, &name, sheet, asked, number, &text);
    }
    // Either direction about as often as the other, and neither now and then.
    let [outward, inward, neither] = ways.map(|times| times * 100 / count.max(1));
    let fair = outward >= 40 && inward >= 40 && (1..10).contains(&neither);
    tally.claim(fair, || format!("of {count} inputs, {ways:?} are outward, inward and in neither direction"));
}

/// Sheets that walks fall over, each asked about two places in both directions.
pub fn walks(tally: &mut Tally, seed: u64, count: u64) {
    for index in 0..count {
        let mut rng = Rng::new(seed, index);
        let mut sheet = true_sheet(&mut rng);
        WALK_FAULTS[index as usize % WALK_FAULTS.len()](&mut rng, &mut sheet);
        let asked = [(); 2].map(|()| ask_well(&mut rng, &sheet).both_ways()).concat();
        one_sheet(tally, &format!("walk {index} of seed {seed}"), &sheet.to_bytes(), &asked);
    }
}

/// The check and these questions on one sheet against the direct readings; gives the check's number.
pub fn one_sheet(tally: &mut Tally, name: &str, bytes: &[u8], asked: &[Asked]) -> Number {
    let number = check_number(tally, name, bytes);
    let sheet = laid_out(bytes);
    match &sheet {
        Ok(sheet) => {
            tally.same(name, number, truth::due_of_check(sheet));
            tally.same(name, number == ACCEPTED, truth::tells_the_truth(sheet));
        }
        Err(due) => tally.same(name, number, *due),
    }
    for &asked in asked {
        let name = format!("{name}, {asked}");
        let (outcome, list) = question_asked(tally, &name, bytes, asked);
        match &sheet {
            Ok(sheet) => one_question(tally, &name, sheet, number, asked, (outcome, list)),
            Err(due) => tally.same(&name, outcome.number, *due),
        }
    }
    number
}

/// The sheet, or which of 1 to 6 is due; 1 and 2 are taken as they are given.
fn laid_out(bytes: &[u8]) -> Result<Sheet, Number> {
    let sheet = Sheet::from_bytes(bytes)?;
    match truth::layout(&sheet).iter().position(|holds| !holds) {
        Some(section) => Err(BAD_PLACES + section as u32),
        None => Ok(sheet),
    }
}

/// What came of a question on a sheet whose layout holds and to which the check gives this number.
fn one_question(
    tally: &mut Tally,
    name: &str,
    sheet: &Sheet,
    check: Number,
    asked: Asked,
    (outcome, list): (Outcome, Vec<u64>),
) {
    tally.same(name, (outcome, list), question_due(sheet, asked));
    if ![BAD_Q_OR_DIRECTION, BAD_K].contains(&outcome.number) {
        bounds_hold(tally, name, sheet, asked);
    }
    if check == ACCEPTED && outcome.number == ACCEPTED {
        demands::hold(tally, name, sheet, asked);
    }
}

/// What a question on a sheet whose layout holds should give, by the oracle.
pub fn question_due(sheet: &Sheet, asked: Asked) -> (Outcome, Vec<u64>) {
    let Asked { q, k, direction } = asked;
    let answer_words = ANSWER_WORDS * (k as usize).min(sheet.offices.len());
    let untouched = |number| (Outcome::refused(number), vec![UNTOUCHED_LONG; answer_words]);
    if q as usize >= sheet.places.len() || direction > 1 {
        return untouched(BAD_Q_OR_DIRECTION);
    }
    if k == 0 || k as usize > sheet.offices.len() {
        return untouched(BAD_K);
    }
    match oracle::listing(sheet, asked) {
        Ok((list, refinements)) => (Outcome { number: ACCEPTED, count: u64::from(k), refinements }, list),
        Err(number) => (Outcome::refused(number), vec![0; answer_words]),
    }
}

/// The program's text put together from the size, the check and the question.
fn program(tally: &mut Tally, name: &str, bytes: &[u8], asked: Asked, check: Number, text: &str) {
    let beyond = |s: Sheet| s.places.len() > PROGRAM_PLACES || s.offices.len() > PROGRAM_OFFICES;
    let too_many = layout::read(bytes).is_ok_and(beyond);
    let number = match check {
        _ if bytes.len() > PROGRAM_SHEET_BYTES => PROGRAM_LIMIT,
        CUT_SHORT..=BAD_OFFICES => check,
        _ if too_many => PROGRAM_LIMIT,
        _ => check,
    };
    if number != ACCEPTED {
        tally.same(name, text, &printed(&Outcome::refused(number), &[]));
        return;
    }
    let (outcome, list) = question_asked(tally, name, bytes, asked);
    tally.same(name, text, &printed(&outcome, &list));
}
