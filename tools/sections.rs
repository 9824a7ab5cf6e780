//! The four sections of a sheet as the paper lists them, each kept as the words of its records in sheet order.

pub struct Section {
    /// The word that begins the section in text.
    pub word: &'static str,
    /// One record, as a reader calls it.
    pub record: &'static str,
    /// The words of a record.
    pub fields: &'static [&'static str],
}

const COUNT: usize = 4;

pub const PLACES: usize = 0;
pub const STAGES: usize = 1;
pub const OFFICES: usize = 3;

/// Where the record of a place has its gazetteer number.
const GAZETTEER: usize = 2;

/// The words of a place before places had gazetteer numbers. Nothing in a sheet tells that it is so old.
pub const OLD_PLACE_WORDS: usize = 2;

pub const SECTIONS: [Section; COUNT] = [
    Section { word: "places", record: "a place", fields: &["x", "y", "gazetteer"] },
    Section { word: "stages", record: "a stage", fields: &["tail", "head", "length"] },
    Section { word: "blocks", record: "a block", fields: &["place", "code", "level", "colour", "low", "high"] },
    Section { word: "offices", record: "an office", fields: &["place"] },
];

#[derive(Default)]
pub struct Sheet {
    pub words: [Vec<u32>; COUNT],
}

impl Sheet {
    pub fn records(&self, section: usize) -> std::slice::ChunksExact<'_, u32> {
        self.words[section].chunks_exact(SECTIONS[section].fields.len())
    }

    pub fn place_of_office(&self, number: u64) -> Option<u32> {
        let record = self.records(OFFICES).nth(usize::try_from(number).ok()?)?;
        Some(record[0])
    }

    pub fn gazetteer_of_place(&self, number: u32) -> Option<u32> {
        let record = self.records(PLACES).nth(usize::try_from(number).ok()?)?;
        Some(record[GAZETTEER])
    }

    /// The place with that gazetteer number; of several, which the check refuses, the first.
    pub fn place_of_gazetteer(&self, gazetteer: u32) -> Option<u32> {
        let place = self.records(PLACES).position(|record| record[GAZETTEER] == gazetteer)?;
        u32::try_from(place).ok()
    }
}

pub fn is_digits(written: &str) -> bool {
    !written.is_empty() && written.bytes().all(|byte| byte.is_ascii_digit())
}

/// A number as a word of a sheet; else what is wrong with it.
pub fn number(written: &str) -> Result<u32, String> {
    if !is_digits(written) {
        return Err(format!("\"{written}\" is not a number (digits alone, no commas, no sign)"));
    }
    written.parse().map_err(|_| format!("{written} is above 4,294,967,295, the largest number of a sheet"))
}
