//! Item 1 of document 02: the check and the question as a C host has them, every lent word as bytes, low byte first.

use crate::rules::asked::Asked;
use crate::rules::check;
use crate::rules::limits::*;
use crate::rules::question;
use crate::rules::refusal::Number;
use crate::rules::sheet::words_of;

pub fn check(sheet: &[u8], distances: &mut [u8]) -> Number {
    let mut words = words_of(distances);
    let number = check::check(sheet, &mut words);
    put(distances, words.into_iter().map(u32::to_le_bytes));
    number
}

pub fn question(
    sheet: &[u8],
    asked: Asked,
    answer: &mut [u8],
    working: &mut [u8],
    counts: &mut [u8],
) -> Number {
    if counts.len() < COUNT_WORDS * LONG_WORD_BYTES {
        // 9 for the counts is due when 9 for an empty answer is: k is at least 1 by then.
        return question::question(sheet, asked, &mut [], &mut []).number;
    }
    let (mut list, mut notes) = (long_words_of(answer), long_words_of(working));
    let outcome = question::question(sheet, asked, &mut list, &mut notes);
    put(answer, list.into_iter().map(u64::to_le_bytes));
    put(working, notes.into_iter().map(u64::to_le_bytes));
    put(counts, [outcome.count, outcome.refinements].into_iter().map(u64::to_le_bytes));
    outcome.number
}

/// The whole words of the bytes; what is left over makes none.
pub fn long_words_of(bytes: &[u8]) -> Vec<u64> {
    let words = bytes.chunks_exact(LONG_WORD_BYTES);
    words.map(|b| u64::from_le_bytes(b.try_into().expect("eight bytes"))).collect()
}

/// Writes the words over as many bytes as they have.
fn put<const BYTES: usize>(bytes: &mut [u8], words: impl Iterator<Item = [u8; BYTES]>) {
    for (place, word) in bytes.chunks_exact_mut(BYTES).zip(words) {
        place.copy_from_slice(&word);
    }
}
