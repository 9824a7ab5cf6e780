//! Cell codes, crow distances and intervals.

use crate::rules::limits::*;
use crate::rules::sheet::{Block, Cell};

/// A crow distance, kept apart from road lengths as a kind of number.
#[derive(Clone, Copy, PartialEq, Debug)]
pub struct Crow(pub u64);

/// Two ends in furlongs between which a road length is known to lie.
#[derive(Clone, Copy, PartialEq, Debug)]
pub struct Interval {
    pub low: u64,
    pub high: u64,
}

impl Interval {
    pub const AT_HOME: Interval = Interval { low: 0, high: 0 };

    pub fn overlap(self, other: Interval) -> Interval {
        Interval { low: self.low.max(other.low), high: self.high.min(other.high) }
    }

    pub fn beyond(self, walked: u64) -> Interval {
        Interval { low: self.low + walked, high: self.high + walked }
    }

    pub fn is_empty(self) -> bool {
        self.low > self.high
    }
}

/// Bit i of x at bit 2i, bit i of y at bit 2i+1.
pub fn code_of(cell: Cell) -> u64 {
    let mut code = 0;
    for i in 0..TOP_LEVEL {
        code |= u64::from(cell.x >> i & 1) << (2 * i);
        code |= u64::from(cell.y >> i & 1) << (2 * i + 1);
    }
    code
}

pub fn crow(a: Cell, b: Cell) -> Crow {
    let dx = u64::from(a.x.abs_diff(b.x));
    let dy = u64::from(a.y.abs_diff(b.y));
    Crow(whole_root(CROW_SCALE * (dx * dx + dy * dy)))
}

/// The largest whole number whose square is at most this.
fn whole_root(square: u64) -> u64 {
    let mut root = 0u64;
    for bit in (0..31).rev() {
        let more = root | 1 << bit;
        if more * more <= square {
            root = more;
        }
    }
    root
}

/// Low end rounded up, high end rounded down.
pub fn interval_by(block: &Block, crow: Crow) -> Interval {
    Interval {
        low: (u64::from(block.low) * crow.0).div_ceil(RATIO_UNIT),
        high: u64::from(block.high) * crow.0 / RATIO_UNIT,
    }
}

/// low × c ≤ unit × D ≤ high × c.
pub fn ratio_is_true(block: &Block, crow: Crow, distance: u64) -> bool {
    let scaled = RATIO_UNIT * distance;
    u64::from(block.low) * crow.0 <= scaled && scaled <= u64::from(block.high) * crow.0
}
