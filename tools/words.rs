//! What the program printed, in words.

use crate::direction::Direction;
use crate::refusals::refusal;
use crate::sections::Sheet;

/// Words of an office's line: number, low end, high end, stages walked, gazetteer number of its place.
const LINE_WORDS: usize = 5;

type Line = [u64; LINE_WORDS];

pub enum Answer {
    Refused(u64),
    Listed { lines: Vec<Line>, refinements: u64 },
}

/// The answer that was printed, or nothing where the text is none.
pub fn read(printed: &str) -> Option<Answer> {
    let mut lines = printed.lines();
    let first: Vec<&str> = lines.next()?.split(' ').collect();
    let rest: Option<Vec<Line>> = lines.map(office_line).collect();
    let rest = rest?;
    match first[..] {
        ["refused", number] if rest.is_empty() => Some(Answer::Refused(number.parse().ok()?)),
        [count, refinements] if count.parse() == Ok(rest.len()) => {
            Some(Answer::Listed { lines: rest, refinements: refinements.parse().ok()? })
        }
        _ => None,
    }
}

fn office_line(line: &str) -> Option<Line> {
    let words: Option<Vec<u64>> = line.split(' ').map(|word| word.parse().ok()).collect();
    words?.try_into().ok()
}

/// A refusal's meaning and remedy, or nothing where the table has no such number.
pub fn refused(number: u64) -> Option<String> {
    let known = refusal(number)?;
    Some(format!("Refused, number {number}. {}\nWhat to do: {}\n", known.meaning, known.remedy))
}

/// A list in words, or nothing where it names a place or an office that the sheet has not.
pub fn listed(sheet: &Sheet, direction: &Direction, q: u32, lines: &[Line], refinements: u64) -> Option<String> {
    let asked = format!("{} place {q} (#{})", direction.word, sheet.gazetteer_of_place(q)?);
    let offices = match lines.len() {
        1 => "The office".to_string(),
        count => format!("The {count} offices"),
    };
    let mut text = format!("{offices} nearest by road {asked}, the road running {}:\n", direction.road);
    for (index, [number, low, high, stages, gazetteer]) in lines.iter().enumerate() {
        let place = sheet.place_of_office(*number)?;
        let length = length(*low, *high);
        let stages = counted(*stages, "stage");
        let office = format!("office {number} (at place {place}, #{gazetteer})");
        text += &format!("  {}. {office}: {length}, {stages} walked\n", index + 1);
    }
    text += &format!("{} in all.\n", counted(refinements, "refinement"));
    Some(text)
}

fn length(low: u64, high: u64) -> String {
    if low == high {
        format!("exactly {}", counted(low, "furlong"))
    } else {
        format!("between {low} and {}", counted(high, "furlong"))
    }
}

fn counted(count: u64, thing: &str) -> String {
    format!("{count} {thing}{}", if count == 1 { "" } else { "s" })
}
