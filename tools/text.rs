//! A sheet's sections to and from text for people: a section's word on its own line, then one record to a line.

use crate::sections::{number, Section, Sheet, OFFICES, OLD_PLACE_WORDS, PLACES, SECTIONS, STAGES};
use std::collections::HashMap;

/// Where the remarks begin in written text; they are for the reader and say nothing to the sheet.
const REMARK_COLUMN: usize = 28;

/// # would begin a comment, and the number be missed again.
const OLD_FORM: &str = "; before places had gazetteer numbers two were enough: ask the atlas house for the sheet's \
    new issue, or write each place's gazetteer number, without #, at the end of its line";

/// The sections that a text holds, or its first bad line (numbered from 1) and what is wrong there.
pub fn read(text: &str) -> Result<Sheet, (usize, String)> {
    let mut sheet = Sheet::default();
    let mut begun = 0;
    // Some editors put a byte order mark before the first line.
    let text = text.trim_start_matches('\u{feff}');
    for (index, line) in text.lines().enumerate() {
        let said = line.split('#').next().unwrap_or("");
        let items: Vec<&str> = said.split_whitespace().collect();
        read_line(&items, &mut begun, &mut sheet).map_err(|fault| (index + 1, fault))?;
    }
    match SECTIONS.get(begun) {
        None => Ok(sheet),
        Some(next) => Err((text.lines().count().max(1), missing(next))),
    }
}

/// One line: nothing, the word of the next section, or a record of the section last begun.
fn read_line(items: &[&str], begun: &mut usize, sheet: &mut Sheet) -> Result<(), String> {
    let Some(first) = items.first() else {
        return Ok(());
    };
    if first.starts_with(char::is_alphabetic) {
        begin(items, *begun)?;
        *begun += 1;
        return Ok(());
    }
    let section = begun.checked_sub(1).ok_or("a record before any section; expected the word places")?;
    sheet.words[section].extend(record(items, section)?);
    Ok(())
}

/// Whether a line of words begins the section that is due.
fn begin(items: &[&str], begun: usize) -> Result<(), String> {
    let word = items[0];
    let section = SECTIONS
        .iter()
        .position(|section| section.word == word)
        .ok_or(format!("unknown word \"{word}\"; expected places, stages, blocks or offices"))?;
    // Sections are begun in order, so one that is no longer due has stood already.
    if section < begun {
        return Err(format!("the section {word} stands here a second time"));
    }
    if section > begun {
        return Err(format!("the section {word} is out of order; expected {} first", SECTIONS[begun].word));
    }
    match items.get(1) {
        None => Ok(()),
        Some(extra) => Err(format!("\"{extra}\" after the word {word}; expected the word alone on its line")),
    }
}

fn record(items: &[&str], section: usize) -> Result<Vec<u32>, String> {
    let expected = expected(&SECTIONS[section]);
    let words: Result<Vec<u32>, String> = items.iter().map(|item| number(item)).collect();
    let words = words.map_err(|fault| format!("{fault}; {expected}"))?;
    let (count, due) = (words.len(), SECTIONS[section].fields.len());
    let few = if count < due { "few" } else { "many" };
    let old = if section == PLACES && count == OLD_PLACE_WORDS { OLD_FORM } else { "" };
    match count == due {
        true => Ok(words),
        false => Err(format!("too {few} numbers ({count}); {expected}{old}")),
    }
}

fn expected(section: &Section) -> String {
    let numbers = if section.fields.len() == 1 { "number" } else { "numbers" };
    format!("expected {} as {} {numbers}: {}", section.record, section.fields.len(), section.fields.join(" "))
}

fn missing(section: &Section) -> String {
    format!("the text ends without the section {0}; an empty section is the word {0} alone", section.word)
}

/// The text of a sheet, with remarks that number what the other records name by number.
pub fn write(sheet: &Sheet) -> String {
    let mut text = String::new();
    for (section, Section { word, fields, .. }) in SECTIONS.iter().enumerate() {
        if section > 0 {
            text.push('\n');
        }
        let remarks = remarks(sheet, section);
        put_line(&mut text, word, &format!("{} of: {}", sheet.records(section).len(), fields.join(" ")));
        for (record, remark) in sheet.records(section).zip(remarks) {
            let numbers: Vec<String> = record.iter().map(u32::to_string).collect();
            put_line(&mut text, &numbers.join(" "), &remark);
        }
    }
    text
}

fn put_line(text: &mut String, said: &str, remark: &str) {
    let line = if remark.is_empty() { said.to_string() } else { format!("{said:<REMARK_COLUMN$} # {remark}") };
    text.push_str(&line);
    text.push('\n');
}

/// A remark for each record of a section; a block is named nowhere by number and gets none.
fn remarks(sheet: &Sheet, section: usize) -> Vec<String> {
    let mut leaving: HashMap<u32, u32> = HashMap::new();
    let mut colour = |tail: u32| {
        let next = leaving.entry(tail).or_insert(0);
        *next += 1;
        *next - 1
    };
    // Nothing is said of a place that the sheet has not.
    let known = |before: &str, place: u32| {
        sheet.gazetteer_of_place(place).map_or(String::new(), |number| format!("{before} #{number}"))
    };
    let remark = |(index, record): (usize, &[u32])| match section {
        PLACES => format!("place {index}"),
        STAGES => {
            let (tail, head) = (record[0], record[1]);
            format!("colour {} of place {tail}{}{}", colour(tail), known(", from", tail), known(" to", head))
        }
        OFFICES => format!("office {index}{}", known(", at", record[0])),
        _ => String::new(),
    };
    sheet.records(section).enumerate().map(remark).collect()
}
