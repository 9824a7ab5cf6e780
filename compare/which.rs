//! What is compared, named so that it can be compared again.

use std::fmt;

#[derive(Clone, Copy, PartialEq, Debug)]
pub enum Part {
    /// A sheet of program size.
    Small,
    /// A net of full size, in its forms.
    Full,
    /// A map of the longest walks, with its questions.
    Longest,
    /// Calls by several threads at once.
    Threads,
}

#[derive(Clone, Copy)]
pub struct Which {
    pub part: Part,
    pub seed: u64,
    pub index: u64,
}

impl Part {
    pub fn named(word: &str) -> Option<Part> {
        [Part::Small, Part::Full, Part::Longest, Part::Threads].into_iter().find(|part| part.name() == word)
    }

    fn name(self) -> &'static str {
        match self {
            Part::Small => "small",
            Part::Full => "full",
            Part::Longest => "longest",
            Part::Threads => "threads",
        }
    }
}

impl fmt::Display for Which {
    fn fmt(&self, out: &mut fmt::Formatter) -> fmt::Result {
        write!(out, "{} {} {}", self.part.name(), self.seed, self.index)
    }
}
