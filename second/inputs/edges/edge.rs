//! What an edge is, and the edges that are changes of the marked sheet.

use crate::inputs::marked;
use crate::rules::refusal::Number;
use crate::rules::sheet::Sheet;

#[derive(Clone, Copy, PartialEq, Debug)]
pub enum Due {
    /// What 1 to 6 come to; 0 says that the layout passes, whether or not the sheet is true.
    Layout(Number),
    /// What the whole check comes to.
    Check(Number),
}

pub struct Edge {
    pub name: &'static str,
    pub sheet: Vec<u8>,
    pub due: Due,
}

/// The marked sheet with one change.
pub fn layout(due: Number, name: &'static str, change: impl FnOnce(&mut Sheet)) -> Edge {
    Edge { due: Due::Layout(due), ..check(due, name, change) }
}

/// The marked sheet with one change, told what the check says.
pub fn check(due: Number, name: &'static str, change: impl FnOnce(&mut Sheet)) -> Edge {
    let mut sheet = marked::sheet();
    change(&mut sheet);
    Edge { name, sheet: sheet.to_bytes(), due: Due::Check(due) }
}

impl Edge {
    /// One more change on top.
    pub fn and(self, change: impl FnOnce(&mut Sheet)) -> Edge {
        let mut sheet = Sheet::from_bytes(&self.sheet).expect("sections are whole");
        change(&mut sheet);
        Edge { sheet: sheet.to_bytes(), ..self }
    }
}
