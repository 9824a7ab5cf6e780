//! Inputs at and beyond the program's own limits: bytes of input and of the sheet, N and M.

use crate::inputs::damage;
use crate::inputs::draw::trees::quarters;
use crate::inputs::draw::{ask_well, Plan};
use crate::inputs::marked;
use crate::inputs::rng::Rng;
use crate::rules::asked::Asked;
use crate::rules::limits::*;
use crate::rules::program::input_of;
use crate::rules::sheet::{bytes_of, Block, Sheet};

pub const KINDS: usize = 19;

pub fn input(rng: &mut Rng, kind: usize) -> Vec<u8> {
    match kind {
        0 => lean(rng, PROGRAM_PLACES, 40),
        1 => lean(rng, PROGRAM_PLACES + 1, 40),
        2 => lean(rng, 30, PROGRAM_OFFICES),
        3 => lean(rng, 30, PROGRAM_OFFICES + 1),
        4 => lean(rng, PROGRAM_PLACES, PROGRAM_OFFICES),
        5 => full(rng, 0),
        6 => full(rng, 4),
        7 => full(rng, -1),
        8 => full(rng, 1),
        9 => lean_damaged(rng, PROGRAM_PLACES + 1, 20),
        10 => lean_damaged(rng, 20, PROGRAM_OFFICES + 1),
        11 => lean_damaged(rng, PROGRAM_PLACES, PROGRAM_OFFICES),
        12 => short(rng),
        13 => fat(rng),
        14 => cut(rng, PROGRAM_HEAD_BYTES - 1),
        15 => cut(rng, PROGRAM_HEAD_BYTES),
        16 => cut(rng, PROGRAM_HEAD_BYTES - WORD_BYTES),
        17 => of_two_words(rng),
        _ => zeros(rng),
    }
}

fn asked(rng: &mut Rng, sheet: &Sheet) -> Vec<u8> {
    let asked = ask_well(rng, sheet);
    // A few answers are enough on a large sheet, now and then all of them.
    let k = if rng.chance(12) { asked.k.min(9) } else { asked.k };
    input_of(Asked { k, ..asked }, &sheet.to_bytes())
}

fn lean(rng: &mut Rng, places: usize, offices: usize) -> Vec<u8> {
    let sheet = Plan::lean(rng, places, offices).sheet(rng);
    asked(rng, &sheet)
}

/// Beyond the limits in number and damaged too: 1 to 6 come before 20, 11 to 15 after it.
fn lean_damaged(rng: &mut Rng, places: usize, offices: usize) -> Vec<u8> {
    let sheet = Plan::lean(rng, places, offices).sheet(rng);
    let damaged = damage::damaged(rng, &sheet);
    asked(rng, &damaged)
}

/// A true sheet that fills the program's bytes to the last, then so many bytes more or fewer.
fn full(rng: &mut Rng, more: isize) -> Vec<u8> {
    let sheet = filled(rng);
    let mut input = asked(rng, &sheet);
    input.resize((input.len() as isize + more) as usize, 0);
    input
}

pub fn filled(rng: &mut Rng) -> Sheet {
    let mut sheet = Plan::lean(rng, 100, 0).sheet(rng);
    let room = |sheet: &Sheet| (PROGRAM_SHEET_BYTES - sheet.to_bytes().len()) / WORD_BYTES;
    while room(&sheet) > PROGRAM_OFFICES {
        let at = rng.below(sheet.blocks.len());
        split(&mut sheet, at);
    }
    let places = sheet.places.len();
    sheet.offices = (0..room(&sheet)).map(|_| rng.below(places) as u32).collect();
    sheet
}

/// Quarters of a block are as true as the block; those without a place of another are dropped.
fn split(sheet: &mut Sheet, at: usize) {
    let whole = sheet.blocks[at];
    if whole.level == 0 {
        return;
    }
    let others: Vec<usize> = (0..sheet.places.len()).filter(|&v| v != whole.place as usize).collect();
    let kept = quarters(sheet, whole.code, whole.level, &others)
        .into_iter()
        .filter(|(_, places)| !places.is_empty())
        .map(|(code, _)| Block { code, level: whole.level - 1, ..whole });
    let kept: Vec<Block> = kept.collect();
    sheet.blocks.splice(at..=at, kept);
}

fn short(rng: &mut Rng) -> Vec<u8> {
    let length = rng.below(PROGRAM_HEAD_BYTES + 2 * WORD_BYTES);
    (0..length).map(|_| rng.pick(&[0, 0, 1, 255])).collect()
}

/// So many bytes of a good input: 20 while a direction is not whole, then a sheet without a byte.
fn cut(rng: &mut Rng, length: usize) -> Vec<u8> {
    let mut input = asked(rng, &marked::sheet());
    input.truncate(length);
    input
}

/// An input of the time before item 4, without a direction: the count of places is read for it.
pub fn of_two_words(rng: &mut Rng) -> Vec<u8> {
    let sheet = Plan::any(rng).sheet(rng);
    let Asked { q, k, .. } = ask_well(rng, &sheet);
    let mut input = bytes_of(&[q, k]);
    input.extend(sheet.to_bytes());
    input
}

/// A true sheet of no more places than allowed but of far too many blocks.
fn fat(rng: &mut Rng) -> Vec<u8> {
    let mut plan = Plan::any(rng);
    plan.places = 70;
    plan.habit.split = 15;
    let sheet = plan.sheet(rng);
    asked(rng, &sheet)
}

/// Nothing but zeros, about as long as a sheet may be: 2 within the limit, 20 beyond it.
fn zeros(rng: &mut Rng) -> Vec<u8> {
    let length = PROGRAM_SHEET_BYTES + rng.pick(&[0, 4, 1, 3]) - rng.pick(&[0, 4]);
    vec![0; PROGRAM_HEAD_BYTES + length]
}
