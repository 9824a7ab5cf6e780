//! The place that a question is about, as it is written: its number, or # and its gazetteer number.

use crate::sections::{is_digits, number, Sheet};

#[derive(Clone, Copy)]
pub enum Asked {
    Place(u32),
    Gazetteer(u32),
}

/// What is written, or what is wrong with it.
pub fn read(written: &str) -> Result<Asked, String> {
    let Some(digits) = written.strip_prefix('#') else {
        return number(written).map(Asked::Place);
    };
    if !is_digits(digits) {
        return Err(format!("\"{written}\" is no gazetteer number (# and then digits alone, as in #103)"));
    }
    match number(digits)? {
        0 => Err(format!("\"{written}\" is no gazetteer number, since none is 0")),
        gazetteer => Ok(Asked::Gazetteer(gazetteer)),
    }
}

impl Asked {
    /// The number of the place on a sheet. One that is written goes to the program as it is, which judges it.
    pub fn place(self, sheet: &Sheet) -> Result<u32, String> {
        match self {
            Asked::Place(place) => Ok(place),
            Asked::Gazetteer(gazetteer) => sheet
                .place_of_gazetteer(gazetteer)
                .ok_or(format!("no place of this sheet has the gazetteer number {gazetteer}")),
        }
    }
}
