//! Runs a check or a question in the self test and looks at every word of the slices it was lent.

use crate::rules::asked::Asked;
use crate::rules::check::check;
use crate::rules::layout;
use crate::rules::limits::*;
use crate::rules::question::{question, Outcome};
use crate::rules::refusal::*;
use crate::rules::sheet::Sheet;
use crate::selftest::plain::roads;
use crate::tally::Tally;

const UNTOUCHED: u32 = 0xA5A5_5A5A;
pub const UNTOUCHED_LONG: u64 = 0xA5A5_5A5A_C3C3_3C3C;
const BEYOND: usize = 7;

/// The check's number, its slice being exactly long enough, longer, and one word too short.
pub fn check_number(tally: &mut Tally, name: &str, bytes: &[u8]) -> Number {
    let sheet = layout::read(bytes).ok();
    let pairs = sheet.as_ref().map_or(9, |s| s.places.len() * s.places.len());
    let mut slice = vec![UNTOUCHED; pairs + BEYOND];
    let number = check(bytes, &mut slice);
    tally.met_check(number);
    let due = distances_due(sheet.as_ref(), number, pairs);
    tally.claim(slice[..pairs] == due, || format!("{name}: distance words after {number}"));
    tally.claim(slice[pairs..].iter().all(|&w| w == UNTOUCHED), || format!("{name}: words beyond N x N"));
    let mut exact = vec![UNTOUCHED; pairs];
    tally.same(name, check(bytes, &mut exact), number);
    tally.claim(exact == due, || format!("{name}: distance words of an exact slice after {number}"));
    let mut short = vec![UNTOUCHED; pairs - 1];
    let number_short = check(bytes, &mut short);
    tally.met_check(number_short);
    tally.same(name, number_short, if sheet.is_some() { SHORT_DISTANCES } else { number });
    tally.claim(short.iter().all(|&w| w == UNTOUCHED), || format!("{name}: words after {number_short}"));
    number
}

pub fn check_gives(tally: &mut Tally, name: &str, sheet: &Sheet, due: Number) {
    let number = check_number(tally, name, &sheet.to_bytes());
    tally.same(name, number, due);
}

pub fn question_gives(tally: &mut Tally, name: &str, sheet: &Sheet, asked: Asked, due: Number) {
    let (outcome, _) = question_asked(tally, name, &sheet.to_bytes(), asked);
    tally.same(name, outcome.number, due);
}

fn distances_due(sheet: Option<&Sheet>, number: Number, pairs: usize) -> Vec<u32> {
    match (sheet, number) {
        (Some(_), UNREACHED) => vec![0; pairs],
        (Some(sheet), ACCEPTED | IN_NO_BLOCK..=IDLE_BLOCK) => {
            let known = roads(sheet).into_iter().flatten();
            known.map(|d| d.map_or(u32::MAX, |d| d as u32)).collect()
        }
        _ => vec![UNTOUCHED; pairs],
    }
}

/// The question's result and its list, its slices being long enough; then with slices too short.
pub fn question_asked(tally: &mut Tally, name: &str, bytes: &[u8], asked: Asked) -> (Outcome, Vec<u64>) {
    let offices = Sheet::from_bytes(bytes).map_or(0, |s| s.offices.len());
    let answer_words = ANSWER_WORDS * (asked.k as usize).min(offices);
    let working_words = WORKING_WORDS * offices;
    let mut answer = vec![UNTOUCHED_LONG; answer_words + BEYOND];
    let mut working = vec![UNTOUCHED_LONG; working_words + BEYOND];
    let outcome = question(bytes, asked, &mut answer, &mut working);
    tally.met_question(asked, outcome.number);
    let walked = !(CUT_SHORT..=SHORT_SLICES).contains(&outcome.number);
    let (answer_used, working_used) = if walked { (answer_words, working_words) } else { (0, 0) };
    let untouched = |words: &[u64]| words.iter().all(|&w| w == UNTOUCHED_LONG);
    let beyond = untouched(&answer[answer_used..]) && untouched(&working[working_used..]);
    tally.claim(beyond, || format!("{name}: words to be left after {}", outcome.number));
    tally.claim(working[..working_used].iter().all(|&w| w == 0), || format!("{name}: working words"));
    if outcome.number != ACCEPTED {
        tally.claim(answer[..answer_used].iter().all(|&w| w == 0), || format!("{name}: answer words"));
        tally.same(name, (outcome.count, outcome.refinements), (0, 0));
    } else {
        tally.same(name, outcome.count, u64::from(asked.k));
    }
    if walked {
        short_slices(tally, name, bytes, asked, [answer_words, working_words], outcome);
    }
    answer.truncate(answer_words);
    (outcome, answer)
}

fn short_slices(tally: &mut Tally, name: &str, bytes: &[u8], asked: Asked, [a, w]: [usize; 2], whole: Outcome) {
    for (answer_words, working_words, due) in [
        (a, w, whole),
        (a - 1, w, Outcome::refused(SHORT_SLICES)),
        (4 * asked.k as usize, w, Outcome::refused(SHORT_SLICES)),
        (a, w - 1, Outcome::refused(SHORT_SLICES)),
        (0, 0, Outcome::refused(SHORT_SLICES)),
    ] {
        let mut answer = vec![UNTOUCHED_LONG; answer_words];
        let mut working = vec![UNTOUCHED_LONG; working_words];
        let outcome = question(bytes, asked, &mut answer, &mut working);
        tally.met_question(asked, outcome.number);
        tally.same(name, outcome, due);
        if outcome.number == SHORT_SLICES {
            let words = answer.iter().chain(&working);
            tally.claim(words.copied().all(|w| w == UNTOUCHED_LONG), || format!("{name}: words after 9"));
        }
    }
}
