//! Random damage to the bytes of a whole sheet: cuts, odd lengths, counts, words left over.

use crate::inputs::rng::Rng;
use crate::rules::limits::WORD_BYTES;
use crate::rules::sheet::{bytes_of, words_of, Sheet};

pub fn damaged(rng: &mut Rng, sheet: &Sheet) -> Vec<u8> {
    let mut bytes = sheet.to_bytes();
    match rng.below(8) {
        0 => bytes.truncate(rng.below(bytes.len())),
        1 => bytes.truncate(WORD_BYTES * rng.below(bytes.len() / WORD_BYTES)),
        2 => bytes.truncate(WORD_BYTES * rng.pick(&sheet.count_positions())),
        3 => bytes.extend(bytes_of(&[0; 3][..1 + rng.below(3)])),
        4 => bytes.push(rng.next() as u8),
        5 => bytes = one_word_changed(rng, &bytes),
        6 => {
            // Two faults: the odd length is to win.
            bytes = count_changed(rng, sheet);
            bytes.push(0);
        }
        _ => bytes = count_changed(rng, sheet),
    }
    bytes
}

fn count_changed(rng: &mut Rng, sheet: &Sheet) -> Vec<u8> {
    let mut words = words_of(&sheet.to_bytes());
    let section = rng.below(4);
    let at = sheet.count_positions()[section];
    let most = [1_024, 8_192, 262_144, 4_096][section];
    words[at] = rng.pick(&[0, 1, most, most + 1, u32::MAX, words[at] + 1, words[at].saturating_sub(1)]);
    bytes_of(&words)
}

fn one_word_changed(rng: &mut Rng, bytes: &[u8]) -> Vec<u8> {
    let mut words = words_of(bytes);
    let at = rng.below(words.len());
    words[at] = match rng.below(4) {
        0 => words[at].wrapping_add(1),
        1 => words[at].wrapping_sub(1),
        2 => rng.between(0, 1_100),
        _ => rng.next() as u32,
    };
    bytes_of(&words)
}
