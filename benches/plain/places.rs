//! The rule of the places: cells on the grid, gazetteer numbers other than 0, neither of them twice.

use crate::plain::sections::*;
use crate::rules::limits::GRID_SIDE;

/// The children of a word in a tree: one for each octal digit.
const DIGITS: usize = 8;

/// The room of a table: half of it stays free.
const ROOM: usize = 2 * MOST_PLACES;

/// An odd number near 2^32 over the golden ratio: products with it differ in their highest bits.
const SCATTER: u32 = 0x9E37_79B1;

/// The cell as one number and the gazetteer number, where both may stand.
#[inline(always)]
fn keys(place: &[u8]) -> Option<(u32, u32)> {
    let (x, y, gazetteer) = (word(place, 0), word(place, 1), word(place, 2));
    (x < GRID_SIDE && y < GRID_SIDE && gazetteer != 0).then_some((x * GRID_SIDE + y, gazetteer))
}

/// The library's method: one pass over the records, then a tree of the cells and one of the numbers.
pub fn hold_by_trees(places: &[u8]) -> bool {
    let (mut cells, mut numbers) = ([0; MOST_PLACES], [0; MOST_PLACES]);
    for (i, place) in places.chunks_exact(PLACE_BYTES).enumerate() {
        let Some((cell, number)) = keys(place) else {
            return false;
        };
        (cells[i], numbers[i]) = (cell, number);
    }
    let count = places.len() / PLACE_BYTES;
    all_differ(&cells[..count]) && all_differ(&numbers[..count])
}

fn all_differ(words: &[u32]) -> bool {
    let mut kids = [0; DIGITS * MOST_PLACES];
    (1..words.len()).all(|i| is_hung(words, &mut kids, i))
}

/// Hangs word i below those before it, by its octal digits from the lowest, unless it is one of them. Word 0 is the root
/// and nobody's child.
#[inline(always)]
fn is_hung(words: &[u32], kids: &mut [u16; DIGITS * MOST_PLACES], i: usize) -> bool {
    let (mut p, mut rest) = (0, words[i]);
    while words[p] != words[i] {
        let kid = &mut kids[DIGITS * p + rest as usize % DIGITS];
        if *kid == 0 {
            *kid = i as u16;
            return true;
        }
        p = *kid as usize;
        rest /= DIGITS as u32;
    }
    false
}

/// A table with open addressing for the cells and one for the numbers: on random numbers faster than sorting them or
/// than a `HashSet`, and for cells than a bit for each, since so little room has to be cleared.
pub fn hold_by_tables(places: &[u8]) -> bool {
    let (mut cells, mut numbers) = ([0; ROOM], [0; ROOM]);
    places.chunks_exact(PLACE_BYTES).all(|place| {
        // 0 is room that is free.
        keys(place).is_some_and(|(cell, number)| is_new(&mut cells, cell + 1) && is_new(&mut numbers, number))
    })
}

/// Puts a key other than 0 where its product leads or into the next room that is free, unless it is met on the way.
#[inline(always)]
fn is_new(table: &mut [u32; ROOM], key: u32) -> bool {
    let mut at = (key.wrapping_mul(SCATTER) >> (u32::BITS - ROOM.ilog2())) as usize;
    while table[at] != 0 && table[at] != key {
        at = (at + 1) % ROOM;
    }
    let new = table[at] == 0;
    table[at] = key;
    new
}
