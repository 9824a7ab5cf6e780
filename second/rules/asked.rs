//! What a question asks: a place, a number of offices and a direction, each as a word that may have any value.

use crate::rules::limits::{DIRECTIONS, INWARD, OUTWARD};
use std::fmt;

#[derive(Clone, Copy, PartialEq, Debug)]
pub struct Asked {
    pub q: u32,
    pub k: u32,
    pub direction: u32,
}

impl Asked {
    pub fn outward(q: u32, k: u32) -> Asked {
        Asked { q, k, direction: OUTWARD }
    }

    pub fn inward(q: u32, k: u32) -> Asked {
        Asked { q, k, direction: INWARD }
    }

    /// The same question in each of the two directions.
    pub fn both_ways(self) -> [Asked; 2] {
        DIRECTIONS.map(|direction| Asked { direction, ..self })
    }

    /// From where to where the road of an office runs that stands at this place.
    pub fn road(self, stand: usize) -> (usize, usize) {
        let q = self.q as usize;
        if self.direction == INWARD { (stand, q) } else { (q, stand) }
    }

    /// Its direction among `WAYS`.
    pub fn way(self) -> usize {
        DIRECTIONS.iter().position(|&direction| direction == self.direction).unwrap_or(NEITHER)
    }
}

/// What the directions are called, and after them all words that are neither.
pub const WAYS: [&str; NEITHER + 1] = ["outward", "inward", "neither"];
pub const NEITHER: usize = DIRECTIONS.len();

impl fmt::Display for Asked {
    fn fmt(&self, out: &mut fmt::Formatter) -> fmt::Result {
        write!(out, "q = {}, k = {}, direction {} ({})", self.q, self.k, self.direction, WAYS[self.way()])
    }
}
