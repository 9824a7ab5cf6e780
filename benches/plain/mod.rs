//! The library's work in plain Rust, safe and over the standard library alone: by the library's own method, and by
//! the fastest means that were found.

pub mod blocks;
pub mod by_columns;
pub mod by_rows;
pub mod entry;
pub mod expansion;
pub mod layout;
pub mod listing;
pub mod measure;
pub mod places;
pub mod quick_listing;
pub mod roads;
pub mod sections;
pub mod tournament;
pub mod trail;
