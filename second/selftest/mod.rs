//! The self test: all its parts, the table of what was met, and the verdict.

mod demands;
mod directions;
mod host;
mod large;
mod largest;
mod longest;
mod oracle;
mod paper;
mod plain;
mod probe;
mod random;
mod readings;
mod truth;

use crate::rules::asked::{NEITHER, WAYS};
use crate::rules::refusal::*;
use crate::tally::Tally;
use std::panic::{catch_unwind, AssertUnwindSafe};

const REFUSALS_LEAST: u64 = 5;
const ACCEPTANCES_LEAST: u64 = 500;
const LISTINGS_LEAST: u64 = 500;
const FAILURES_SHOWN: usize = 20;

/// Whether nothing failed.
pub fn run(seed: u64, count: u64) -> bool {
    let mut tally = Tally::default();
    part(&mut tally, "the paper's cases", paper::run);
    part(&mut tally, "readings", readings::run);
    part(&mut tally, "a host's bytes", host::run);
    part(&mut tally, "edges", random::edges);
    part(&mut tally, "layout maxima", large::run);
    part(&mut tally, "the longest walks", |t| longest::run(t, seed));
    part(&mut tally, "random inputs", |t| random::inputs(t, seed, count));
    part(&mut tally, "walks", |t| random::walks(t, seed, count / 4));
    part(&mut tally, "directions", |t| directions::run(t, seed, count / 8));
    part(&mut tally, "numbers met", all_were_met);
    print!("{}", tally.table());
    for failure in tally.failures.iter().take(FAILURES_SHOWN) {
        println!("FAILED {failure}");
    }
    println!("second: {} cases, {} failed", tally.cases, tally.failures.len());
    tally.failures.is_empty()
}

fn part(tally: &mut Tally, name: &str, test: impl FnOnce(&mut Tally)) {
    let (cases, failed) = (tally.cases, tally.failures.len());
    // A panic is a failure like any other: the table and the verdict still follow.
    if catch_unwind(AssertUnwindSafe(|| test(tally))).is_err() {
        tally.claim(false, || format!("{name}: stopped by a panic"));
    }
    println!("{name}: {} cases, {} failed", tally.cases - cases, tally.failures.len() - failed);
}

/// A number that is hardly met has hardly been tested. The program's numbers count as those of its question.
fn all_were_met(tally: &mut Tally) {
    met_often(tally, "check: not refused", tally.times_of_check(ACCEPTED), ACCEPTANCES_LEAST);
    for number in (CUT_SHORT..=BAD_OFFICES).chain(SHORT_DISTANCES..=IDLE_BLOCK) {
        met_often(tally, &format!("check: refused {number}"), tally.times_of_check(number), REFUSALS_LEAST);
    }
    for (way, name) in WAYS[..NEITHER].iter().enumerate() {
        met_often(tally, &format!("{name}: not refused"), tally.times_of_question(way, ACCEPTED), LISTINGS_LEAST);
    }
    tally.same("neither: not refused", tally.times_of_question(NEITHER, ACCEPTED), 0);
    for (way, name) in WAYS.into_iter().enumerate() {
        for number in refusals().filter(|&number| is_due(way, number)) {
            met_often(tally, &format!("{name}: refused {number}"), tally.times_of_question(way, number), REFUSALS_LEAST);
        }
    }
}

/// Whether a question or the program can give the number in this direction; no walk is made in neither.
fn is_due(way: usize, number: Number) -> bool {
    match number {
        SHORT_DISTANCES => false,
        BAD_K | SHORT_SLICES | WALK_TOO_LONG..=WALK_EMPTY => way != NEITHER,
        _ => true,
    }
}

fn met_often(tally: &mut Tally, name: &str, times: u64, least: u64) {
    tally.claim(times >= least, || format!("{name} was met {times} times"));
}
