//! Self test: what a C host's bytes hold after the check and the question, by hand from the marked sheet: N = 4, M = 3.

use crate::inputs::draw::NO_DIRECTIONS;
use crate::inputs::marked::{self, block, place, stage};
use crate::rules::asked::Asked;
use crate::rules::host::{check, question};
use crate::rules::limits::DIRECTIONS;
use crate::rules::refusal::Number;
use crate::rules::sheet::Sheet;
use crate::tally::Tally;

/// D(u,v) of the marked sheet, by u and then v.
const ROADS: [u32; 16] = [0, 6, 11, 9, 6, 0, 5, 15, 11, 5, 0, 20, 9, 15, 20, 0];
const TABLE: usize = 64;

/// How long the answer, the working slice and the counts are for k = 2.
const EXACT: [usize; 3] = [80, 144, 16];
const NAMES: [&str; 3] = ["answer", "working", "counts"];

pub fn run(tally: &mut Tally) {
    tables(tally);
    no_table(tally);
    listings(tally);
    short_slices(tally);
    earlier_numbers(tally);
    walks_refused(tally);
    low_bytes_first(tally);
}

/// What stands in a slice beforehand: no byte like its neighbours, none of them 0.
fn before(length: usize) -> Vec<u8> {
    (0..length).map(|i| (i % 251) as u8 + 1).collect()
}

/// These bytes at the front of a slice of this length, the others as before.
fn begun(front: &[u8], length: usize) -> Vec<u8> {
    let mut bytes = before(length);
    bytes[..front.len()].copy_from_slice(front);
    bytes
}

/// Words of 64 bits that are below 256.
fn long_bytes(words: &[u8]) -> Vec<u8> {
    words.iter().flat_map(|&word| [word, 0, 0, 0, 0, 0, 0, 0]).collect()
}

fn checks(tally: &mut Tally, name: &str, sheet: &[u8], length: usize, due: (Number, &[u8])) {
    let mut distances = before(length);
    let number = check(sheet, &mut distances);
    tally.met_check(number);
    tally.same(name, (number, distances), (due.0, begun(due.1, length)));
}

/// A question with slices of these lengths; due are the number and what each slice begins with.
fn asks(
    tally: &mut Tally,
    name: &str,
    sheet: &[u8],
    asked: Asked,
    lengths: [usize; 3],
    due: (Number, [&[u8]; 3]),
) {
    let [mut answer, mut working, mut counts] = lengths.map(before);
    let number = question(sheet, asked, &mut answer, &mut working, &mut counts);
    tally.met_question(asked, number);
    tally.same(name, number, due.0);
    for (i, found) in [answer, working, counts].into_iter().enumerate() {
        tally.same(&format!("{name}: {}", NAMES[i]), found, begun(due.1[i], lengths[i]));
    }
}

/// The marked sheet with one change.
fn changed(change: fn(&mut Sheet)) -> Vec<u8> {
    let mut sheet = marked::sheet();
    change(&mut sheet);
    sheet.to_bytes()
}

fn tables(tally: &mut Tally) {
    let table: Vec<u8> = ROADS.iter().flat_map(|&road| [road as u8, 0, 0, 0]).collect();
    let sheets = [
        (0, marked::sheet().to_bytes()),
        // Place 3 has no block.
        (12, changed(|sheet| sheet.blocks.truncate(6))),
        // From place 0 to place 3 by way of place 1 is 6 + 15, not 9.
        (13, changed(|sheet| sheet.blocks[0].colour = 0)),
        (14, changed(|sheet| sheet.blocks[5].low = 65)),
        // A block of place 0 about place 0 alone.
        (15, changed(|sheet| sheet.blocks.insert(0, block([0, 0, 1, 0, 0, 0])))),
    ];
    for length in [TABLE, TABLE + 1, TABLE + 2, TABLE + 3, TABLE + 4, 1_000] {
        for (number, sheet) in &sheets {
            checks(tally, &format!("a table with {number}"), sheet, length, (*number, &table));
        }
    }
}

fn no_table(tally: &mut Tally) {
    let mut lost = marked::sheet();
    lost.stages.pop();
    lost.blocks.pop();
    for length in [TABLE, TABLE + 1, TABLE + 7] {
        checks(tally, "a table after 11", &lost.to_bytes(), length, (11, &[0; TABLE]));
    }
    for length in [0, 1, 16, TABLE - 4, TABLE - 1] {
        checks(tally, "10", &marked::sheet().to_bytes(), length, (10, &[]));
        checks(tally, "10 before 11", &lost.to_bytes(), length, (10, &[]));
        checks(tally, "1 before 10", &[0; 7], length, (1, &[]));
        checks(tally, "2 before 10", &[0; 8], length, (2, &[]));
    }
    let sheets = [
        (1, Vec::new()),
        (2, vec![0; 8]),
        (3, changed(|sheet| sheet.places[0].cell.x = 1_024)),
        (4, changed(|sheet| sheet.stages[0].length = 0)),
        (5, changed(|sheet| sheet.blocks[0].level = 11)),
        (6, changed(|sheet| sheet.offices[0] = 4)),
    ];
    for (number, sheet) in sheets {
        checks(tally, &format!("{number} with room"), &sheet, 1_000, (number, &[]));
    }
}

fn listings(tally: &mut Tally) {
    listings_of(tally, Asked::outward, [2, 5, 5, 1, 102, 0, 11, 11, 2, 101], [5, 1]);
    listings_of(tally, Asked::inward, [2, 5, 5, 0, 102, 0, 11, 11, 0, 101], [0, 0]);
}

/// The marked questions of one direction: the list of two offices, and the refinements for two and for one.
fn listings_of(tally: &mut Tally, ask: fn(u32, u32) -> Asked, list: [u8; 10], [for_two, for_one]: [u8; 2]) {
    let sheet = marked::sheet().to_bytes();
    let list = long_bytes(&list);
    let counts = long_bytes(&[2, for_two]);
    for more in [[0, 0, 0], [1, 0, 0], [0, 1, 0], [0, 0, 1], [7, 5, 3], [8, 8, 8], [900, 800, 700]] {
        let lengths = [0, 1, 2].map(|i| EXACT[i] + more[i]);
        asks(tally, "k = 2", &sheet, ask(2, 2), lengths, (0, [&list, &[0; 144], &counts]));
    }
    let counts = long_bytes(&[1, for_one]);
    asks(tally, "k = 1", &sheet, ask(2, 1), EXACT, (0, [&list[..40], &[0; 144], &counts]));
    asks(tally, "k = 1, 40 bytes", &sheet, ask(2, 1), [40, 144, 16], (0, [&list[..40], &[0; 144], &counts]));
    for length in [39, 36, 32, 31] {
        asks(tally, "k = 1, too few bytes", &sheet, ask(2, 1), [length, 144, 16], (9, [&[], &[], &[0; 16]]));
    }
}

fn short_slices(tally: &mut Tally) {
    let sheet = marked::sheet().to_bytes();
    let mut nine = |lengths: [usize; 3], counts: &[u8]| {
        for asked in Asked::outward(2, 2).both_ways() {
            asks(tally, "9", &sheet, asked, lengths, (9, [&[], &[], counts]));
        }
    };
    for counts in [16, 17, 1_000] {
        nine([79, 144, counts], &[0; 16]);
        nine([72, 144, counts], &[0; 16]);
        // Four words to an office.
        nine([64, 144, counts], &[0; 16]);
        nine([80, 143, counts], &[0; 16]);
        nine([72, 136, counts], &[0; 16]);
        nine([0, 144, counts], &[0; 16]);
        nine([80, 0, counts], &[0; 16]);
    }
    for counts in [0, 1, 8, 15] {
        nine([80, 144, counts], &[]);
        nine([1_000, 1_000, counts], &[]);
        nine([79, 143, counts], &[]);
    }
}

/// 1 to 8 come before 9, and clear counts that have their 16 bytes.
fn earlier_numbers(tally: &mut Tally) {
    for slices in [[0, 0], [80, 144], [100, 200]] {
        for counts in [0, 7, 15, 16, 17, 40] {
            let lengths = [slices[0], slices[1], counts];
            DIRECTIONS.into_iter().for_each(|direction| refused_early(tally, direction, lengths, 8));
            NO_DIRECTIONS.into_iter().for_each(|direction| refused_early(tally, direction, lengths, 7));
        }
    }
}

/// Faults of a question and of its sheet in this direction, where a k that is out of range gives this number: 7 where the
/// direction is at fault too.
fn refused_early(tally: &mut Tally, direction: u32, lengths: [usize; 3], of_k: Number) {
    let sheet = marked::sheet().to_bytes();
    let cleared: &[u8] = if lengths[2] < 16 { &[] } else { &[0; 16] };
    let mut refuses = |name: &str, sheet: &[u8], (q, k): (u32, u32), number: Number| {
        asks(tally, name, sheet, Asked { q, k, direction }, lengths, (number, [&[], &[], cleared]));
    };
    refuses("k = 0", &sheet, (2, 0), of_k);
    refuses("k = 4", &sheet, (2, 4), of_k);
    refuses("k of all bits", &sheet, (2, u32::MAX), of_k);
    refuses("q = 4", &sheet, (4, 0), 7);
    refuses("q of all bits", &sheet, (u32::MAX, 2), 7);
    refuses("a sheet cut", &sheet[..315], (4, 0), 1);
    refuses("no sheet", &[], (2, 2), 1);
    if of_k == 7 {
        refuses("no fault but the direction", &sheet, (2, 2), 7);
    }
}

/// Places 0 and 1 send every letter to each other, and two offices wait at place 2.
fn round_and_round() -> Sheet {
    Sheet {
        places: vec![place([0, 0, 61]), place([1, 0, 62]), place([9, 9, 63])],
        stages: vec![stage([0, 1, 1]), stage([1, 0, 1]), stage([2, 0, 1])],
        blocks: vec![block([0, 0, 10, 0, 0, 5_000]), block([1, 0, 10, 0, 0, 5_000])],
        offices: vec![2, 2],
    }
}

/// From place 0 to the offices; and inward, q and the offices having changed places.
fn walks_refused(tally: &mut Tally) {
    let round = round_and_round();
    let mut unseen = round_and_round();
    unseen.blocks.remove(1);
    let mut crossed = round_and_round();
    crossed.blocks[1] = block([1, 0, 10, 0, 10_000, 10_000]);
    for (mut sheet, due) in [(round, 16), (unseen, 17), (crossed, 18)] {
        walk_refused(tally, &sheet, Asked::outward(0, 1), due);
        sheet.offices = vec![0, 0];
        walk_refused(tally, &sheet, Asked::inward(2, 1), due);
    }
}

fn walk_refused(tally: &mut Tally, sheet: &Sheet, asked: Asked, due: Number) {
    let (sheet, cleared) = (sheet.to_bytes(), (due, [&[0; 40][..], &[0; 96], &[0; 16]]));
    asks(tally, "a walk", &sheet, asked, [40, 96, 16], cleared);
    asks(tally, "a walk, bytes beyond", &sheet, asked, [55, 103, 23], cleared);
    asks(tally, "a walk, no counts", &sheet, asked, [40, 96, 15], (9, [&[], &[], &[]]));
    asks(tally, "a walk, short working", &sheet, asked, [40, 95, 16], (9, [&[], &[], &[0; 16]]));
    asks(tally, "a walk, short answer", &sheet, asked, [39, 96, 16], (9, [&[], &[], &[0; 16]]));
}

/// Two places whose road is 258 furlongs, 2 and 1 × 256; 16,512 × 64 / 4,096 is 258. The listed office's
/// gazetteer number has all its four bytes.
fn low_bytes_first(tally: &mut Tally) {
    let sheet = Sheet {
        places: vec![place([0, 0, u32::MAX]), place([1, 0, 0xF403_02F1])],
        stages: vec![stage([0, 1, 258]), stage([1, 0, 258])],
        blocks: [0, 1].map(|u| block([u, 0, 10, 0, 16_512, 16_512])).to_vec(),
        offices: vec![1],
    };
    let table = [0, 0, 0, 0, 2, 1, 0, 0, 2, 1, 0, 0, 0, 0, 0, 0];
    checks(tally, "a table of two bytes", &sheet.to_bytes(), 17, (0, &table));
    let mut list = [0; 40];
    list[8..10].copy_from_slice(&[2, 1]);
    list[16..18].copy_from_slice(&[2, 1]);
    list[32..36].copy_from_slice(&[0xF1, 0x02, 0x03, 0xF4]);
    let counts = [1, 0, 0, 0, 0, 0, 0, 0, 0, 0, 0, 0, 0, 0, 0, 0];
    for asked in Asked::outward(0, 1).both_ways() {
        asks(tally, "a list of two bytes", &sheet.to_bytes(), asked, [41, 49, 17], (0, [&list, &[0; 48], &counts]));
    }
}
