//! The bench: the library, by its C functions, beside plain Rust and others, in one run. ./bench builds and runs it;
//! docs/SPEED.md says what it measures.

mod agree;
#[path = "../include/atlas.rs"]
mod atlas;
#[allow(dead_code, unused_imports)]
#[path = "../second/inputs/mod.rs"]
mod inputs;
mod library;
mod parts;
mod peers;
mod plain;
mod race;
#[allow(dead_code)]
#[path = "../second/rules/mod.rs"]
mod rules;
mod sheets;
mod stop;
mod table;
#[allow(dead_code)]
#[path = "../second/tally.rs"]
mod tally;

use parts::{check, layout, question, Extent};
use std::io::{self, Write};
use std::process::ExitCode;
use stop::Stop;

const USUAL_ROUNDS: usize = 9;

const WHOLE: Extent = Extent {
    sizes: &[128, 256, 512, 1_024],
    asked_size: 1_024,
    offices: &[10, 100, 1_000, 4_096],
    nearest: &[1, 10, 50],
    rounds: USUAL_ROUNDS,
};

const SMALL: Extent =
    Extent { sizes: &[10, 40], asked_size: 40, offices: &[10, 100], nearest: &[1, 10], rounds: 1 };

type Part = fn(&Extent) -> Result<(), Stop>;

const PARTS: [(&str, Part); 3] =
    [("check", check::tabulate), ("question", question::tabulate), ("layout", layout::tabulate)];

fn main() -> ExitCode {
    let arguments: Vec<String> = std::env::args().skip(1).collect();
    let words: Vec<&str> = arguments.iter().map(String::as_str).collect();
    let Some((parts, extent)) = read(&words) else {
        eprintln!("bench: no such run; ./bench tests the words");
        return ExitCode::from(2);
    };
    match run(&parts, &extent) {
        Ok(()) => ExitCode::SUCCESS,
        Err(Stop::Differ(how)) => {
            eprintln!("bench: the two sides differ: {how}");
            ExitCode::FAILURE
        }
        Err(Stop::Unwritten(error)) => {
            eprintln!("bench: a table could not be written: {error}");
            ExitCode::from(2)
        }
    }
}

/// Which parts to run and how much of each; nothing when the words are no command.
fn read(words: &[&str]) -> Option<(Vec<Part>, Extent)> {
    let (wanted, rest): (Vec<_>, &[&str]) = match words {
        ["small"] => return Some((PARTS.map(|(_, part)| part).to_vec(), SMALL)),
        [name, rest @ ..] if PARTS.iter().any(|(part, _)| part == name) => {
            (PARTS.iter().filter(|(part, _)| part == name).collect(), rest)
        }
        _ => (PARTS.iter().collect(), words),
    };
    let rounds = match rest {
        [] => USUAL_ROUNDS,
        [rounds] => rounds.parse().ok().filter(|&rounds| rounds > 0)?,
        _ => return None,
    };
    Some((wanted.into_iter().map(|(_, part)| *part).collect(), Extent { rounds, ..WHOLE }))
}

fn run(parts: &[Part], extent: &Extent) -> Result<(), Stop> {
    agree::on_small_sheets()?;
    let remark = if extent.rounds == 1 { " (which says nothing of speed)" } else { "" };
    let rounds = extent.rounds;
    writeln!(io::stdout(), "thread time, best of {rounds}{remark}; ratios by the library's time")?;
    parts.iter().try_for_each(|part| part(extent))
}
