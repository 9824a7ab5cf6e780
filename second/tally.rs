//! The count of cases and failures, and of how often each number was met: of checks, and of questions in each direction.

use crate::rules::asked::{Asked, NEITHER, WAYS};
use crate::rules::program::parted;
use crate::rules::refusal::*;
use std::fmt;
use std::iter::once;

/// How often each number was met.
type Met = [u64; LAST as usize + 1];

#[derive(Default)]
pub struct Tally {
    pub cases: u64,
    pub failures: Vec<String>,
    checks: Met,
    questions: [Met; WAYS.len()],
}

impl Tally {
    /// One case: the claim must hold; the message says what was being tested.
    pub fn claim(&mut self, holds: bool, message: impl FnOnce() -> String) {
        self.cases += 1;
        if !holds {
            self.failures.push(message());
        }
    }

    pub fn same<T: PartialEq + fmt::Debug>(&mut self, name: &str, found: T, due: T) {
        let holds = found == due;
        self.claim(holds, || format!("{name}: {found:?} where {due:?} is due"));
    }

    pub fn met_check(&mut self, number: Number) {
        self.checks[number as usize] += 1;
    }

    pub fn met_question(&mut self, asked: Asked, number: Number) {
        self.questions[asked.way()][number as usize] += 1;
    }

    /// What the program printed for an input; one that is too short for a direction has neither.
    pub fn met_text(&mut self, input: &[u8], text: &str) {
        let way = parted(input).map_or(NEITHER, |(asked, _)| asked.way());
        let number = text.strip_prefix("refused ").map(|n| n.trim().parse().expect("a number"));
        self.questions[way][number.unwrap_or(ACCEPTED) as usize] += 1;
    }

    pub fn times_of_check(&self, number: Number) -> u64 {
        self.checks[number as usize]
    }

    /// Of questions in one of `WAYS`.
    pub fn times_of_question(&self, way: usize, number: Number) -> u64 {
        self.questions[way][number as usize]
    }

    /// A line for what was not refused, and one for each refusal number.
    pub fn table(&self) -> String {
        let columns: Vec<(&str, &Met)> = once(("check", &self.checks)).chain(WAYS.into_iter().zip(&self.questions)).collect();
        let mut text = String::new();
        for number in once(ACCEPTED).chain(refusals()) {
            let met: Vec<String> = columns.iter().map(|(name, met)| format!("{name} {}", met[number as usize])).collect();
            let name = if number == ACCEPTED { String::from("not refused") } else { format!("refused {number}") };
            text += &format!("{name}: {}\n", met.join(", "));
        }
        text
    }
}
