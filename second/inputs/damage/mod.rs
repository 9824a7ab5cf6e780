//! Random damage to a true sheet: to its records (layout, truth, walks) or to its bytes.

pub mod bytes;
mod fault;
mod layout;
mod truth;
pub mod walk;

use crate::inputs::rng::Rng;
use crate::rules::sheet::Sheet;
use layout::LAYOUT_FAULTS;
use truth::TRUTH_FAULTS;

/// One fault as often as several; half of them break the layout, half only the truth.
pub fn damaged(rng: &mut Rng, sheet: &Sheet) -> Sheet {
    let mut sheet = sheet.clone();
    let faults = rng.pick(&[1, 1, 1, 2, 2, 3]);
    let layout_too = rng.chance(8);
    for _ in 0..faults {
        let fault = if layout_too && rng.chance(8) { rng.pick(&LAYOUT_FAULTS) } else { rng.pick(&TRUTH_FAULTS) };
        fault(rng, &mut sheet);
    }
    if layout_too {
        rng.pick(&LAYOUT_FAULTS)(rng, &mut sheet);
    }
    sheet
}
