//! What is asked of the library in one call.

use crate::rules::asked::Asked;
use std::fmt;

#[derive(Clone, Copy)]
pub enum Ask {
    /// The check, lent so many bytes.
    Check(usize),
    /// The question, lent so many bytes of answer, working slice and counts.
    Question(Asked, [usize; 3]),
}

impl fmt::Display for Ask {
    fn fmt(&self, out: &mut fmt::Formatter) -> fmt::Result {
        match self {
            Ask::Check(bytes) => write!(out, "check, distances of {bytes} bytes"),
            Ask::Question(asked, [answer, working, counts]) => {
                write!(out, "question {asked}, answer of {answer} bytes, working {working}, counts {counts}")
            }
        }
    }
}
