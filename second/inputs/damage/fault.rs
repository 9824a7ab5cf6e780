//! What a fault is, and what every kind of fault needs.

use crate::inputs::rng::Rng;
use crate::rules::sheet::Sheet;

pub type Fault = fn(&mut Rng, &mut Sheet);

/// One record of a section, if it has any.
pub fn one<'a, T>(rng: &mut Rng, records: &'a mut [T]) -> Option<&'a mut T> {
    let at = rng.below(records.len());
    records.get_mut(at)
}
