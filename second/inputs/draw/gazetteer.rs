//! Random gazetteer numbers: none 0, none twice, and none like the number of a place or an office but by chance, so that
//! one taken for another shows.

use crate::inputs::rng::Rng;
use crate::rules::sheet::{Cell, Place};
use std::collections::BTreeSet;

#[derive(Clone, Copy, PartialEq, Debug)]
pub enum Numbers {
    /// Anywhere in the word and in no order, now and then with the least or the largest among them.
    Spread,
    /// One after the other, from anywhere.
    Run,
    /// The same in their lowest 22 bits, so that only the ten highest tell 1,024 of them apart.
    Alike,
}

pub const NUMBERS: [Numbers; 3] = [Numbers::Spread, Numbers::Run, Numbers::Alike];

const ALIKE_BITS: u32 = 22;

/// Mostly spread.
pub fn any_numbers(rng: &mut Rng) -> Numbers {
    if rng.chance(12) { Numbers::Spread } else { rng.pick(&NUMBERS) }
}

/// Places in these cells, in their order.
pub fn numbered(rng: &mut Rng, cells: &[Cell], numbers: Numbers) -> Vec<Place> {
    let gazetteer = match numbers {
        Numbers::Spread => spread(rng, cells.len()),
        Numbers::Run => run(rng, cells.len()),
        Numbers::Alike => alike(rng, cells.len()),
    };
    cells.iter().zip(gazetteer).map(|(&cell, gazetteer)| Place { cell, gazetteer }).collect()
}

fn spread(rng: &mut Rng, count: usize) -> Vec<u32> {
    let ends = [1, u32::MAX].into_iter().filter(|_| rng.chance(3));
    let mut numbers: BTreeSet<u32> = ends.collect();
    while numbers.len() < count {
        numbers.insert(rng.between(1, u32::MAX));
    }
    let mut numbers: Vec<u32> = numbers.into_iter().collect();
    rng.shuffle(&mut numbers);
    numbers
}

fn run(rng: &mut Rng, count: usize) -> Vec<u32> {
    let count = count as u32;
    let first = rng.between(1, u32::MAX - count);
    (first..first + count).collect()
}

fn alike(rng: &mut Rng, count: usize) -> Vec<u32> {
    let low = rng.between(1, (1 << ALIKE_BITS) - 1);
    let mut numbers: Vec<u32> = (0..count as u32).map(|high| high << ALIKE_BITS | low).collect();
    rng.shuffle(&mut numbers);
    numbers
}
