//! Document 01 as items 2, 4, 8 and 11 of document 02 leave it: its numbers, the sheet, the measures, the check, the
//! question and the program; and item 1 of document 02.

pub mod asked;
pub mod check;
pub mod host;
pub mod layout;
pub mod limits;
pub mod map;
pub mod measure;
pub mod program;
pub mod question;
pub mod refusal;
pub mod roads;
pub mod sheet;
