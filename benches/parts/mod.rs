//! What is measured: the check, the question and the layout, each with how its peers agree with the library and its table.

pub mod check;
pub mod layout;
pub mod question;

/// How much is measured.
pub struct Extent {
    /// Places of the sheets for check and layout.
    pub sizes: &'static [usize],
    /// Places of the sheets for questions, the offices that they have, and how many are asked for.
    pub asked_size: usize,
    pub offices: &'static [usize],
    pub nearest: &'static [usize],
    pub rounds: usize,
}

/// Offices of a sheet where it hardly matters how many.
const SOME_OFFICES: usize = 1_000;
