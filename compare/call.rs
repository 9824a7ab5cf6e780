//! One call: what the library leaves, what the second program says is due, and where they differ.

use crate::ask::Ask;
use crate::crash::noted;
use crate::guarded::{Guard, Guarded};
use crate::inputs::longest::case::Record;
use crate::library;
use crate::rules::host::{self, long_words_of};
use crate::rules::limits::ANSWER_WORDS;
use crate::rules::refusal::{Number, ACCEPTED};
use crate::which::Which;

#[derive(Clone, Copy)]
pub struct Call {
    pub ask: Ask,
    /// Settles what stands in the slices beforehand.
    pub salt: u64,
    pub guards: [Guard; 3],
}

/// What a call returns and leaves.
#[derive(PartialEq)]
pub struct Outcome {
    pub number: Number,
    slices: Vec<Vec<u8>>,
    /// Whether the sheet is as before, and what lies beside it and the slices.
    kept: bool,
}

/// What one thread lends to one call after the other.
pub struct Slices(Vec<Guarded>);

impl Slices {
    pub fn new() -> Slices {
        Slices((0..3).map(|_| Guarded::with_room(0)).collect())
    }
}

/// Bytes in no order, others for each salt.
fn fill(bytes: &mut [u8], salt: u64) {
    let mut state = salt;
    for byte in bytes {
        state = state.wrapping_mul(6_364_136_223_846_793_005).wrapping_add(1_442_695_040_888_963_407);
        *byte = (state >> 56) as u8;
    }
}

impl Call {
    pub fn lengths(&self) -> Vec<usize> {
        match self.ask {
            Ask::Check(bytes) => vec![bytes],
            Ask::Question(_, lengths) => lengths.to_vec(),
        }
    }

    fn names(&self) -> &'static [&'static str] {
        match self.ask {
            Ask::Check(_) => &["distances"],
            Ask::Question(..) => &["answer", "working", "counts"],
        }
    }

    fn salt_of(&self, slice: usize) -> u64 {
        self.salt.wrapping_add(slice as u64)
    }

    /// By the second program, on ordinary vectors.
    pub fn due(&self, sheet: &[u8]) -> Outcome {
        let mut slices: Vec<Vec<u8>> = self.lengths().into_iter().map(|length| vec![0; length]).collect();
        for (i, slice) in slices.iter_mut().enumerate() {
            fill(slice, self.salt_of(i));
        }
        let number = match (self.ask, &mut slices[..]) {
            (Ask::Question(asked, _), [answer, working, counts]) => {
                host::question(sheet, asked, answer, working, counts)
            }
            (_, slices) => host::check(sheet, &mut slices[0]),
        };
        Outcome { number, slices, kept: true }
    }

    /// By the library, on guarded slices; the bytes are those that the sheet should still have.
    pub fn found(&self, which: Which, sheet: &Guarded, bytes: &[u8], slices: &mut Slices) -> Outcome {
        let lent = &mut slices.0[..self.names().len()];
        for (i, (slice, length)) in lent.iter_mut().zip(self.lengths()).enumerate() {
            slice.lend(length, self.guards[i]);
            fill(slice.bytes_mut(), self.salt_of(i));
        }
        let number = noted(which, self.ask, || match (self.ask, &mut lent[..]) {
            (Ask::Question(asked, _), [answer, working, counts]) => {
                library::question(sheet, asked, answer, working, counts)
            }
            (_, slices) => library::check(sheet, &mut slices[0]),
        });
        let kept = sheet.bytes() == bytes && sheet.is_kept_beside() && lent.iter().all(Guarded::is_kept_beside);
        Outcome { number, slices: lent.iter().map(|slice| slice.bytes().to_vec()).collect(), kept }
    }

    /// The records of a list.
    pub fn list(&self, outcome: &Outcome) -> Vec<Record> {
        let Ask::Question(asked, _) = self.ask else {
            return Vec::new();
        };
        let count = if outcome.number == ACCEPTED { asked.k as usize } else { 0 };
        let words = long_words_of(&outcome.slices[0]);
        words.chunks(ANSWER_WORDS).take(count).map(|record| record.try_into().expect("a whole record")).collect()
    }

    /// Nothing where the two are the same; else what differs first.
    pub fn difference(&self, found: &Outcome, due: &Outcome) -> Option<String> {
        if found.number != due.number {
            return Some(format!("gives {} where {} is due", found.number, due.number));
        }
        for (name, (found, due)) in self.names().iter().zip(found.slices.iter().zip(&due.slices)) {
            if let Some(at) = (0..due.len()).find(|&at| found[at] != due[at]) {
                return Some(format!("byte {at} of the {name} is {} where {} is due", found[at], due[at]));
            }
        }
        (found != due).then(|| String::from("the sheet, or a byte beside it or a slice, was changed"))
    }
}
