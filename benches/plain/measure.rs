//! Cells, their codes, and crow distances.

use crate::plain::sections::{word, PLACE_BYTES};
use crate::rules::limits::CROW_SCALE;

#[derive(Clone, Copy)]
pub struct Cell {
    pub x: u32,
    pub y: u32,
}

impl Cell {
    /// The cell of the place v among the places of a sheet.
    #[inline(always)]
    pub fn of(places: &[u8], v: usize) -> Cell {
        let place = &places[PLACE_BYTES * v..][..PLACE_BYTES];
        Cell { x: word(place, 0), y: word(place, 1) }
    }

    #[inline(always)]
    pub fn code(self) -> u32 {
        spread(self.x) | spread(self.y) << 1
    }
}

/// Bit i of x at bit 2i.
#[inline(always)]
fn spread(x: u32) -> u32 {
    let x = (x | x << 8) & 0x00ff_00ff;
    let x = (x | x << 4) & 0x0f0f_0f0f;
    let x = (x | x << 2) & 0x3333_3333;
    (x | x << 1) & 0x5555_5555
}

#[inline(always)]
fn square(a: Cell, b: Cell) -> u64 {
    let (dx, dy) = (u64::from(a.x.abs_diff(b.x)), u64::from(a.y.abs_diff(b.y)));
    CROW_SCALE * (dx * dx + dy * dy)
}

/// The crow distance by the whole root of the standard library.
#[inline(always)]
pub fn crow(a: Cell, b: Cell) -> u64 {
    square(a, b).isqrt()
}

/// The crow distance by the processor's root: exact, since the square is far below 2^52.
#[inline(always)]
pub fn quick_crow(a: Cell, b: Cell) -> u64 {
    (square(a, b) as f64).sqrt() as u64
}
