//! The count of sheets, calls and differences, of how often each function was due to give each number, the question in
//! each direction, of how often each input that has to be met was lent, and of what the longest walks came to.

use crate::ask::Ask;
use crate::call::{Call, Outcome};
use crate::guarded::Guarded;
use crate::rules::asked::{NEITHER, WAYS};
use crate::rules::limits::*;
use crate::rules::refusal::*;
use crate::which::Part;

const DIFFERENCES_SHOWN: usize = 20;

/// The numbers that each function can give; of the question, in either direction and in neither.
const OF_CHECK: [Number; 13] = [0, 1, 2, 3, 4, 5, 6, 10, 11, 12, 13, 14, 15];
const OF_QUESTION: [Number; 13] = [0, 1, 2, 3, 4, 5, 6, 7, 8, 9, 16, 17, 18];
const OF_NEITHER: [Number; 7] = [1, 2, 3, 4, 5, 6, 7];

/// The bytes of the four counts and of the most records.
const LARGEST_SHEET: usize = WORD_BYTES
    * (4 + *PLACES.end() as usize * PLACE_WORDS
        + *STAGES.end() as usize * STAGE_WORDS
        + *BLOCKS.end() as usize * BLOCK_WORDS
        + *OFFICES.end() as usize * OFFICE_WORDS);

const INPUTS: usize = 13;
const INPUT_NAMES: [&str; INPUTS] = [
    "no bytes of sheet",
    "the largest sheet there can be, accepted",
    "a sheet at an odd address, accepted",
    "a sheet that is NULL",
    "distances that are NULL",
    "an answer that is NULL",
    "a working slice that is NULL",
    "counts that are NULL",
    "a slice of no whole words",
    "counts of 0 bytes",
    "counts of 15 bytes",
    "counts of 16 bytes",
    "counts of 17 bytes",
];

/// Lengths of an answer: so many words for each of k offices, less so many bytes; and what is due to such a question.
const ANSWERS: usize = 4;
const ANSWER_LENGTHS: [(&str, usize, usize, Number); ANSWERS] = [
    ("an answer of 40k bytes, listed", ANSWER_WORDS, 0, ACCEPTED),
    ("an answer of 40k - 1 bytes, refused by 9", ANSWER_WORDS, 1, SHORT_SLICES),
    ("an answer of 40k - 8 bytes, refused by 9", ANSWER_WORDS, LONG_WORD_BYTES, SHORT_SLICES),
    ("an answer of 32k bytes, refused by 9", ANSWER_WORDS - 1, 0, SHORT_SLICES),
];

/// On the longest walks: what the functions give, and the ends, stages and gazetteer number of an office in a list.
const LONGEST: usize = 20;
const LONGEST_NAMES: [&str; LONGEST] = [
    "check: accepted",
    "outward: refused 16",
    "outward: refused 17",
    "outward: refused 18",
    "outward: 0 to 97088700393 after 0 stages",
    "outward: 97088700371 to 97088700393 after 0 stages",
    "outward: 131070 to 96899039207 after 2 stages",
    "outward: 94258461688 to 94258461708 after 1022 stages",
    "outward: 67042305 to 67042305 after 1023 stages",
    "outward: gazetteer number 4294967295",
    "inward: refused 16",
    "inward: refused 17",
    "inward: refused 18",
    "inward: 0 to 97088700393 after 0 stages",
    "inward: 97088700371 to 97088700393 after 0 stages",
    "inward: 131070 to 96899039207 after 2 stages",
    "inward: 94258461688 to 94258461708 after 1022 stages",
    "inward: 94258527223 to 94258527243 after 1023 stages",
    "inward: 67042305 to 67042305 after 1023 stages",
    "inward: gazetteer number 4294967295",
];

/// Whether everything has to be met, or a part is compared again.
#[derive(Clone, Copy, PartialEq)]
pub enum Scope {
    Whole,
    Again,
}

#[derive(Default)]
pub struct Table {
    pub small: u64,
    pub full: u64,
    pub longest: u64,
    pub at_once: u64,
    checks: [u64; LAST as usize + 1],
    questions: [[u64; LAST as usize + 1]; WAYS.len()],
    inputs: [u64; INPUTS],
    answers: [u64; ANSWERS],
    walks: [u64; LONGEST],
    differences: Vec<String>,
}

/// Which of the inputs to be met a call is.
fn inputs(call: &Call, sheet: &Guarded, due: Number) -> [bool; INPUTS] {
    let lengths = call.lengths();
    let null = |slice: usize| call.guards[slice].is_null(lengths[slice]);
    let (word, counts, [distances, answer, working, no_counts]) = match call.ask {
        Ask::Check(_) => (WORD_BYTES, None, [null(0), false, false, false]),
        Ask::Question(..) => (LONG_WORD_BYTES, Some(lengths[2]), [false, null(0), null(1), null(2)]),
    };
    let accepted = counts.is_none() && due == ACCEPTED;
    let largest = accepted && sheet.length() == LARGEST_SHEET;
    let odd = accepted && !sheet.pointer().addr().is_multiple_of(2);
    let no_sheet = sheet.pointer().is_null();
    let broken = lengths.iter().any(|length| !length.is_multiple_of(word));
    let [none, short, exact, more] = [0, 15, 16, 17].map(|bytes| counts == Some(bytes));
    let empty = sheet.length() == 0;
    [empty, largest, odd, no_sheet, distances, answer, working, no_counts, broken, none, short, exact, more]
}

/// Which of these lengths the answer of a call has.
fn answers(call: &Call, due: Number) -> [bool; ANSWERS] {
    let Ask::Question(asked, [bytes, ..]) = call.ask else {
        return [false; ANSWERS];
    };
    ANSWER_LENGTHS.map(|(_, words, fewer, number)| {
        due == number && bytes + fewer == LONG_WORD_BYTES * words * asked.k as usize
    })
}

fn refused_or(good: &str, number: Number) -> String {
    if number == ACCEPTED { String::from(good) } else { format!("refused {number}") }
}

/// What is due of a call, as the names of the longest walks tell it.
fn walks(call: &Call, due: &Outcome) -> Vec<String> {
    let Ask::Question(asked, _) = call.ask else {
        return vec![format!("check: {}", refused_or("accepted", due.number))];
    };
    let mut met = vec![refused_or("listed", due.number)];
    for [_, low, high, stages, gazetteer] in call.list(due) {
        met.push(format!("{low} to {high} after {stages} stages"));
        met.push(format!("gazetteer number {gazetteer}"));
    }
    met.iter().map(|met| format!("{}: {met}", WAYS[asked.way()])).collect()
}

/// How often a function was due to give each of these numbers.
fn numbered(function: &str, good: &str, numbers: &[Number], met: &[u64]) -> Vec<(String, u64)> {
    let line = |&number: &Number| (format!("{function}: {}", refused_or(good, number)), met[number as usize]);
    numbers.iter().map(line).collect()
}

impl Table {
    pub fn met(&mut self, part: Part, call: &Call, sheet: &Guarded, due: &Outcome) {
        let numbers = match call.ask {
            Ask::Check(_) => &mut self.checks,
            Ask::Question(asked, _) => &mut self.questions[asked.way()],
        };
        numbers[due.number as usize] += 1;
        for (count, is) in self.inputs.iter_mut().zip(inputs(call, sheet, due.number)) {
            *count += u64::from(is);
        }
        for (count, is) in self.answers.iter_mut().zip(answers(call, due.number)) {
            *count += u64::from(is);
        }
        let met = if part == Part::Longest { walks(call, due) } else { Vec::new() };
        for (count, name) in self.walks.iter_mut().zip(LONGEST_NAMES) {
            *count += u64::from(met.iter().any(|met| met == name));
        }
    }

    pub fn differ(&mut self, text: String) {
        self.differences.push(text);
    }

    pub fn add(&mut self, other: Table) {
        self.small += other.small;
        self.full += other.full;
        self.longest += other.longest;
        self.at_once += other.at_once;
        let add = |to: &mut [u64], from: &[u64]| to.iter_mut().zip(from).for_each(|(to, from)| *to += from);
        add(&mut self.checks, &other.checks);
        add(self.questions.as_flattened_mut(), other.questions.as_flattened());
        add(&mut self.inputs, &other.inputs);
        add(&mut self.answers, &other.answers);
        add(&mut self.walks, &other.walks);
        self.differences.extend(other.differences);
    }

    /// All that a whole comparison has to meet, and how often it was met.
    fn lines(&self) -> Vec<(String, u64)> {
        let mut lines = numbered("check", "accepted", &OF_CHECK, &self.checks);
        for (way, met) in self.questions.iter().enumerate() {
            let numbers = if way == NEITHER { &OF_NEITHER[..] } else { &OF_QUESTION };
            lines.extend(numbered(&format!("question, {}", WAYS[way]), "listed", numbers, met));
        }
        lines.extend(INPUT_NAMES.iter().zip(self.inputs).map(|(name, met)| (format!("calls with {name}"), met)));
        let answers = ANSWER_LENGTHS.iter().zip(self.answers);
        lines.extend(answers.map(|((name, ..), met)| (format!("calls with {name}"), met)));
        lines.extend(LONGEST_NAMES.iter().zip(self.walks).map(|(name, met)| (format!("longest walks: {name}"), met)));
        lines.push((String::from("calls by threads at once"), self.at_once));
        lines
    }

    fn not_met(&self) -> usize {
        self.lines().iter().filter(|(_, met)| *met == 0).count()
    }

    pub fn is_good(&self, scope: Scope) -> bool {
        self.differences.is_empty() && (scope == Scope::Again || self.not_met() == 0)
    }

    pub fn text(&self, scope: Scope) -> String {
        let lines = self.lines().into_iter().filter(|(_, met)| scope == Scope::Whole || *met > 0);
        let mut text: String = lines.map(|(name, met)| format!("{name}: {met}\n")).collect();
        for difference in self.differences.iter().take(DIFFERENCES_SHOWN) {
            text += &format!("DIFFERS {difference}\n");
        }
        let checks = self.checks.iter().sum::<u64>();
        let [outward, inward, neither] = self.questions.map(|met| met.iter().sum::<u64>());
        text += &format!("{} sheets of program size, {} of full size, ", self.small, self.full);
        text += &format!("{} of the longest walks; ", self.longest);
        text += &format!("{checks} checks, {outward} questions outward, {inward} inward, {neither} in neither direction; ");
        text += &format!("{} differ", self.differences.len());
        if scope == Scope::Whole {
            text += &format!(", {} of the above were not met", self.not_met());
        }
        text + "\n"
    }
}
