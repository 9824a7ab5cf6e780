//! The program of the paper as a function from its standard input to what it prints.

use crate::rules::asked::Asked;
use crate::rules::check::check;
use crate::rules::layout;
use crate::rules::limits::*;
use crate::rules::question::{question, Outcome};
use crate::rules::refusal::*;
use crate::rules::sheet::{bytes_of, words_of};

pub fn answer(input: &[u8]) -> String {
    let mut list = vec![0; ANSWER_WORDS * PROGRAM_OFFICES];
    let outcome = match before_asking(input) {
        Ok((asked, sheet)) => {
            let mut working = vec![0; WORKING_WORDS * PROGRAM_OFFICES];
            question(sheet, asked, &mut list, &mut working)
        }
        Err(number) => Outcome::refused(number),
    };
    printed(&outcome, &list)
}

/// Size, layout, limits, check; then what is asked and the sheet's bytes.
fn before_asking(input: &[u8]) -> Result<(Asked, &[u8]), Number> {
    let (asked, sheet) = parted(input).ok_or(PROGRAM_LIMIT)?;
    if sheet.len() > PROGRAM_SHEET_BYTES {
        return Err(PROGRAM_LIMIT);
    }
    let sections = layout::read(sheet)?;
    if sections.places.len() > PROGRAM_PLACES || sections.offices.len() > PROGRAM_OFFICES {
        return Err(PROGRAM_LIMIT);
    }
    let mut distances = vec![0; PROGRAM_PLACES * PROGRAM_PLACES];
    let number = check(sheet, &mut distances);
    if number != ACCEPTED {
        return Err(number);
    }
    Ok((asked, sheet))
}

/// What an input asks and its sheet's bytes, unless it is too short.
pub fn parted(input: &[u8]) -> Option<(Asked, &[u8])> {
    let (head, sheet) = input.split_at_checked(PROGRAM_HEAD_BYTES)?;
    let words = words_of(head);
    Some((Asked { q: words[0], k: words[1], direction: words[2] }, sheet))
}

/// The listing or the refusal, every line ended by a line feed.
pub fn printed(outcome: &Outcome, list: &[u64]) -> String {
    if outcome.number != ACCEPTED {
        return format!("refused {}\n", outcome.number);
    }
    let mut text = format!("{} {}\n", outcome.count, outcome.refinements);
    for office in list.chunks(ANSWER_WORDS).take(outcome.count as usize) {
        let words: Vec<String> = office.iter().map(u64::to_string).collect();
        text += &words.join(" ");
        text.push('\n');
    }
    text
}

/// The input of the program: three words, then the sheet.
pub fn input_of(asked: Asked, sheet: &[u8]) -> Vec<u8> {
    let mut input = bytes_of(&[asked.q, asked.k, asked.direction]);
    input.extend(sheet);
    input
}
