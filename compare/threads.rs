//! Several threads call at once, on the same sheets and on different ones, each with its own slices.

use crate::call::{Call, Outcome, Slices};
use crate::guarded::{Guard, Guarded};
use crate::inputs::damage::walk::WALK_FAULTS;
use crate::inputs::draw::true_sheet;
use crate::inputs::full::{self, KINDS};
use crate::inputs::rng::Rng;
use crate::lengths::{asked, check_short, checked, question, Sizes};
use crate::rules::sheet::Sheet;
use crate::run::by_threads;
use crate::table::Table;
use crate::which::Which;
use std::sync::Barrier;

const THREADS: usize = 6;
const SMALL_SHEETS: usize = 100;
const LARGE_PLACES: usize = 300;
const QUESTIONS: usize = 4;

struct Task<'a> {
    sheet: &'a Guarded,
    bytes: &'a [u8],
    call: Call,
    due: Outcome,
}

pub fn at_once(which: Which) -> Table {
    let mut rng = Rng::new(which.seed, which.index);
    let sheets = sheets(&mut rng);
    let bytes: Vec<Vec<u8>> = sheets.iter().map(Sheet::to_bytes).collect();
    let held: Vec<Guarded> = bytes.iter().map(|bytes| Guarded::holding(bytes, rng.pick(&Guard::ALL))).collect();
    let mut tasks = Vec::new();
    for (i, sheet) in sheets.iter().enumerate() {
        for call in calls(&mut rng, sheet) {
            tasks.push(Task { sheet: &held[i], bytes: &bytes[i], call, due: call.due(&bytes[i]) });
        }
    }
    let start = Barrier::new(THREADS);
    by_threads(THREADS, |number| one_thread(which, &tasks, number, &start))
}

/// First all threads in one order, so that they are on the same sheet; then each from a place of its own.
fn one_thread(which: Which, tasks: &[Task], number: usize, start: &Barrier) -> Table {
    let mut table = Table::default();
    let mut slices = Slices::new();
    for first in [0, number * tasks.len() / THREADS] {
        start.wait();
        for task in tasks[first..].iter().chain(&tasks[..first]) {
            let found = task.call.found(which, task.sheet, task.bytes, &mut slices);
            table.at_once += 1;
            if let Some(difference) = task.call.difference(&found, &task.due) {
                table.differ(format!("{which}: {}: {difference}", task.call.ask));
            }
        }
    }
    table
}

fn sheets(rng: &mut Rng) -> Vec<Sheet> {
    let mut sheets: Vec<Sheet> = KINDS.map(|kind| full::sheet(kind, LARGE_PLACES, 0, 50, rng.next())).to_vec();
    for turn in 0..SMALL_SHEETS {
        let mut sheet = true_sheet(rng);
        if turn % 2 == 1 {
            rng.pick(&WALK_FAULTS)(rng, &mut sheet);
        }
        sheets.push(sheet);
    }
    sheets
}

fn calls(rng: &mut Rng, sheet: &Sheet) -> Vec<Call> {
    let sizes = Sizes::of(Some(sheet));
    let mut calls = vec![check_short(rng, &sizes), checked(rng, &sizes)];
    for _ in 0..QUESTIONS {
        let asked = asked(rng, Some(sheet), &sizes);
        calls.push(question(rng, &sizes, asked));
    }
    calls
}
