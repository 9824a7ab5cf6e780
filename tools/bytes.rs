//! A sheet's sections to and from bytes: 32-bit words, low byte first, each section after its count.

use crate::sections::{Section, Sheet, OLD_PLACE_WORDS, PLACES, SECTIONS};

const WORD_BYTES: usize = 4;

const OLD_FORM: &str = "with two words to a place it would be whole: it is from before places had gazetteer numbers; \
    ask the atlas house for its new issue";

pub fn bytes_of(words: &[u32]) -> Vec<u8> {
    words.iter().flat_map(|word| word.to_le_bytes()).collect()
}

pub fn write(sheet: &Sheet) -> Vec<u8> {
    let mut words = Vec::new();
    for section in 0..SECTIONS.len() {
        words.push(sheet.records(section).len() as u32);
        words.extend(&sheet.words[section]);
    }
    bytes_of(&words)
}

/// The sections as they stand, or what keeps them from being four whole ones.
pub fn read(bytes: &[u8]) -> Result<Sheet, String> {
    let length = bytes.len();
    if !length.is_multiple_of(WORD_BYTES) {
        return Err(format!("{length} bytes long, which is no multiple of {WORD_BYTES}"));
    }
    let words = words_of(bytes);
    split(&words, SECTIONS[PLACES].fields.len()).map_err(|fault| match split(&words, OLD_PLACE_WORDS) {
        Ok(_) => format!("{fault}; {OLD_FORM}"),
        Err(_) => fault,
    })
}

/// Whether the bytes are whole with two words to a place too: then they may be an old sheet, and are read as another.
pub fn may_be_old(bytes: &[u8]) -> bool {
    read(bytes).is_ok() && split(&words_of(bytes), OLD_PLACE_WORDS).is_ok()
}

fn words_of(bytes: &[u8]) -> Vec<u32> {
    bytes.chunks_exact(WORD_BYTES).map(|b| u32::from_le_bytes([b[0], b[1], b[2], b[3]])).collect()
}

/// The sections of a sheet whose places have so many words.
fn split(words: &[u32], place_words: usize) -> Result<Sheet, String> {
    let mut sheet = Sheet::default();
    let mut rest = words;
    for (section, Section { fields, .. }) in SECTIONS.iter().enumerate() {
        let width = if section == PLACES { place_words } else { fields.len() };
        sheet.words[section] = take(section, width, &mut rest)?;
    }
    match rest.len() {
        0 => Ok(sheet),
        left => Err(format!("words left over after the last section: {left}")),
    }
}

/// The words of one section, which is its count and then its records.
fn take(section: usize, width: usize, rest: &mut &[u32]) -> Result<Vec<u32>, String> {
    let word = SECTIONS[section].word;
    let (&count, after) = rest.split_first().ok_or(format!("cut short: the count of {word} is missing"))?;
    let need = count as usize * width;
    let left = after.len();
    let (records, later) = after
        .split_at_checked(need)
        .ok_or(format!("cut short in the {word}: a count of {count} needs {need} words, and {left} are left"))?;
    *rest = later;
    Ok(records.to_vec())
}
