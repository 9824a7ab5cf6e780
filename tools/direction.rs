//! Which way the road of a question runs: how it is written, in the program's input, and in an answer.

pub struct Direction {
    /// What stands before the place asked about, in a question and in an answer.
    pub word: &'static str,
    /// Its word in the program's input.
    pub number: u32,
    pub road: &'static str,
}

const OUTWARD: Direction = Direction { word: "from", number: 0, road: "from the place to the office" };
const INWARD: Direction = Direction { word: "to", number: 1, road: "from the office to the place" };

/// What is written, or nothing where it is no direction: none is guessed.
pub fn read(written: &str) -> Option<Direction> {
    [OUTWARD, INWARD].into_iter().find(|direction| direction.word == written)
}
