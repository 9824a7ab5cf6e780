//! Compares the library, through its two C functions, with the second program's account of a host's bytes: the number
//! and every byte of every slice, on true and damaged sheets.

mod ask;
#[path = "../include/atlas.rs"]
mod atlas;
mod call;
mod crash;
mod guarded;
#[allow(dead_code)]
#[path = "../second/inputs/mod.rs"]
mod inputs;
mod lengths;
mod library;
#[allow(dead_code)]
#[path = "../second/rules/mod.rs"]
mod rules;
mod run;
mod sheets;
mod table;
#[allow(dead_code)]
#[path = "../second/tally.rs"]
mod tally;
mod threads;
mod which;

use inputs::longest;
use inputs::rng::Rng;
use std::io::{self, Write};
use std::process::ExitCode;
use table::{Scope, Table};
use which::{Part, Which};

const USAGE: &str = "usage: compare SEED SMALL FULL: SMALL sheets of program size, FULL nets of full size, the \
    longest walks, and threads
       compare small | full | longest | threads SEED INDEX: one of these again, as a difference names it";

fn main() -> ExitCode {
    let arguments: Vec<String> = std::env::args().skip(1).collect();
    let words: Vec<&str> = arguments.iter().map(String::as_str).collect();
    crash::watch();
    let Some((table, scope)) = run(&words) else {
        eprintln!("{USAGE}");
        return ExitCode::from(2);
    };
    if let Err(error) = io::stdout().write_all(table.text(scope).as_bytes()) {
        eprintln!("compare: {error}");
        return ExitCode::FAILURE;
    }
    if table.is_good(scope) { ExitCode::SUCCESS } else { ExitCode::FAILURE }
}

/// Nothing when the words are no command; else what was counted.
fn run(words: &[&str]) -> Option<(Table, Scope)> {
    let &[first, second, third] = words else {
        return None;
    };
    let number = |word: &str| word.parse::<u64>().ok();
    if let Some(part) = Part::named(first) {
        let which = Which { part, seed: number(second)?, index: number(third)? };
        let table = if part == Part::Threads { threads::at_once(which) } else { run::all(&[which]) };
        return Some((table, Scope::Again));
    }
    Some((whole(number(first)?, number(second)?, number(third)?), Scope::Whole))
}

/// The large ones first, so that no thread is left alone with one.
fn whole(seed: u64, small: u64, full: u64) -> Table {
    let longest = longest::all(&mut Rng::new(seed, 0)).len() as u64;
    let mut work = Vec::new();
    for (part, count) in [(Part::Full, full), (Part::Longest, longest), (Part::Small, small)] {
        work.extend((0..count).map(|index| Which { part, seed, index }));
    }
    let mut table = run::all(&work);
    table.add(threads::at_once(Which { part: Part::Threads, seed, index: 0 }));
    table
}
