//! The independent second program: answers by the plainest means, written from document 01 and items 1, 2, 4, 8 and 11
//! of document 02 alone.
//! Its commands print what the proved program should print, make inputs, and test themselves.

mod inputs;
mod rules;
mod selftest;
mod tally;

use inputs::make;
use rules::asked::Asked;
use rules::limits::*;
use rules::{check, program, question};
use std::io::{self, Read, Write};
use std::path::Path;
use std::process::ExitCode;

const USAGE: &str = "usage: second answer | check | question Q K DIRECTION | make SEED COUNT DIR | expect DIR \
    | selftest [SEED COUNT]";

const USUAL_SEED: u64 = 1;
const USUAL_COUNT: u64 = 5_000;

fn main() -> ExitCode {
    let arguments: Vec<String> = std::env::args().skip(1).collect();
    let words: Vec<&str> = arguments.iter().map(String::as_str).collect();
    match run(&words) {
        Some(Ok(true)) => ExitCode::SUCCESS,
        Some(Ok(false)) => ExitCode::FAILURE,
        Some(Err(error)) => {
            eprintln!("second: {error}");
            ExitCode::FAILURE
        }
        None => {
            eprintln!("{USAGE}");
            ExitCode::from(2)
        }
    }
}

/// Nothing when the words are no command; else whether all went well.
fn run(words: &[&str]) -> Option<io::Result<bool>> {
    let number = |word: &str| word.parse::<u64>().ok();
    match words {
        ["answer"] => Some(standard_input().and_then(|input| say(&program::answer(&input)))),
        ["check"] => Some(standard_input().and_then(|sheet| say(&checked(&sheet)))),
        ["question", q, k, direction] => {
            let word = |word: &str| word.parse::<u32>().ok();
            let asked = Asked { q: word(q)?, k: word(k)?, direction: word(direction)? };
            Some(standard_input().and_then(|sheet| say(&answered(&sheet, asked))))
        }
        ["make", seed, count, folder] => {
            Some(make::make(number(seed)?, number(count)?, Path::new(folder)).map(|()| true))
        }
        ["expect", folder] => {
            Some(make::expect(Path::new(folder)).and_then(|tally| say(&tally.table())))
        }
        ["selftest"] => Some(Ok(selftest::run(USUAL_SEED, USUAL_COUNT))),
        ["selftest", seed, count] => Some(Ok(selftest::run(number(seed)?, number(count)?))),
        _ => None,
    }
}

fn standard_input() -> io::Result<Vec<u8>> {
    let mut bytes = Vec::new();
    io::stdin().lock().read_to_end(&mut bytes)?;
    Ok(bytes)
}

fn say(text: &str) -> io::Result<bool> {
    io::stdout().write_all(text.as_bytes()).map(|()| true)
}

fn checked(sheet: &[u8]) -> String {
    let most = *PLACES.end() as usize;
    format!("{}\n", check::check(sheet, &mut vec![0; most * most]))
}

fn answered(sheet: &[u8], asked: Asked) -> String {
    let most = *OFFICES.end() as usize;
    let mut list = vec![0; ANSWER_WORDS * most];
    let outcome = question::question(sheet, asked, &mut list, &mut vec![0; WORKING_WORDS * most]);
    program::printed(&outcome, &list)
}
