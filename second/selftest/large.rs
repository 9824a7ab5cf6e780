//! Self test: sheets at the layout maxima, and one record over each of them.

use crate::inputs::draw::trees::tightest;
use crate::inputs::full;
use crate::inputs::limit_cases;
use crate::inputs::marked::{block, place, stage};
use crate::inputs::rng::Rng;
use crate::rules::asked::Asked;
use crate::rules::check::check;
use crate::rules::layout;
use crate::rules::limits::*;
use crate::rules::map::Map;
use crate::rules::program::{answer, input_of};
use crate::rules::refusal::*;
use crate::rules::roads::Roads;
use crate::rules::sheet::{Block, Sheet, Stage};
use crate::selftest::probe::{check_gives, question_asked};
use crate::tally::Tally;

const SIDE: u32 = 32;
const PLACES: u32 = SIDE * SIDE;
const TREE: u32 = 256;
const LEVEL: u32 = 6;
/// The gazetteer numbers of the grand sheet go down from here.
const LAST_NUMBER: u32 = 4_000_000_000;

pub fn run(tally: &mut Tally) {
    let sheet = grand_sheet();
    let bytes = sheet.to_bytes();
    let counts = [sheet.places.len(), sheet.stages.len(), sheet.blocks.len(), sheet.offices.len()];
    tally.same("the grand sheet's counts", counts, [1_024, 8_192, 262_144, 4_096]);
    let number = check(&bytes, &mut vec![0; 1_024 * 1_024]);
    tally.met_check(number);
    tally.same("the grand sheet is true", number, ACCEPTED);
    // From place 5 the next is 6; to place 5 the nearest is 4.
    grand_question(tally, &bytes, Asked::outward(5, 6), [(6, 3_999_999_994), (1_030, 3_999_999_994)]);
    grand_question(tally, &bytes, Asked::inward(5, 6), [(4, 3_999_999_996), (1_028, 3_999_999_996)]);
    numbers_of_all_places(tally, &sheet);
    one_over(tally, sheet);
    full_sheet(tally);
    full_nets(tally);
}

/// The four offices at place 5 come first, then these, with their gazetteer numbers.
fn grand_question(tally: &mut Tally, bytes: &[u8], asked: Asked, then: [(u64, u64); 2]) {
    let (outcome, list) = question_asked(tally, "the grand sheet", bytes, asked);
    let offices: Vec<(u64, u64)> = list.chunks(ANSWER_WORDS).map(|record| (record[0], record[4])).collect();
    let at_5 = [5, 1_029, 2_053, 3_077].map(|office| (office, 3_999_999_995));
    tally.same("the grand sheet's question", (outcome.number, offices), (0, [&at_5[..], &then].concat()));
    tally.same("the grand sheet in the program", answer(&input_of(asked, bytes)).as_str(), "refused 20\n");
}

/// Every count at its largest, and true: stages of length j lead j places on, so that the stage to
/// the next place begins a shortest road to all others.
fn grand_sheet() -> Sheet {
    let mut sheet = Sheet {
        places: (0..PLACES).map(|u| place([u % SIDE * 32, u / SIDE * 32, LAST_NUMBER - u])).collect(),
        stages: (0..PLACES).flat_map(stages_on).collect(),
        blocks: Vec::new(),
        offices: (0..4 * PLACES).map(|office| office % PLACES).collect(),
    };
    sheet.blocks = grand_blocks(&sheet);
    sheet
}

fn stages_on(u: u32) -> Vec<Stage> {
    let mut stages: Vec<Stage> = (1..=8).map(|j| stage([u, (u + j) % PLACES, j])).collect();
    stages.sort_by_key(|s| s.head);
    stages
}

fn grand_blocks(sheet: &Sheet) -> Vec<Block> {
    let (map, roads) = (Map::of(sheet), Roads::of(sheet));
    let squares: Vec<Vec<usize>> = (0..TREE)
        .map(|i| {
            let square = block([0, i << (2 * LEVEL), LEVEL, 0, 0, 0]);
            (0..map.places()).filter(|&v| map.covers(&square, v)).collect()
        })
        .collect();
    let mut blocks = Vec::new();
    for u in 0..PLACES {
        let next = (u + 1) % PLACES;
        let colour = map.leaving(u as usize).iter().position(|s| s.head == next).expect("a stage to the next");
        for (i, square) in squares.iter().enumerate() {
            let others: Vec<usize> = square.iter().copied().filter(|&v| v != u as usize).collect();
            let (low, high) = tightest(&map, u as usize, &others, |v| roads.between(u as usize, v));
            blocks.push(block([u, (i as u32) << (2 * LEVEL), LEVEL, colour as u32, low, high]));
        }
    }
    blocks
}

/// The gazetteer number of one place given to another; none; and one that no other place has.
fn numbers_of_all_places(tally: &mut Tally, sheet: &Sheet) {
    let last = sheet.places.len() - 1;
    for [one, other] in [[0, last], [last, 0], [0, 1], [last - 1, last], [511, 512], [1, 1_000]] {
        let mut sheet = Sheet { places: sheet.places.clone(), ..Sheet::default() };
        let mut refused = |number: u32| {
            sheet.places[other].gazetteer = number;
            layout::read(&sheet.to_bytes()).err()
        };
        tally.same("a number of 1,024 twice", refused(LAST_NUMBER - one as u32), Some(BAD_PLACES));
        tally.same("no number", refused(0), Some(BAD_PLACES));
        tally.same("another number", refused(u32::MAX), None);
    }
}

/// One record more than a section may have, its bytes all there.
fn one_over(tally: &mut Tally, sheet: Sheet) {
    let mut changed = [sheet.clone(), sheet.clone(), sheet.clone(), sheet];
    changed[0].places.push(place([1, 1, 1]));
    changed[1].stages.push(stage([1_023, 1_022, 1]));
    changed[2].blocks.push(block([1_023, 1_048_575, 0, 0, 0, 0]));
    changed[3].offices.push(0);
    for over in changed {
        let found = layout::read(&over.to_bytes()).err();
        tally.met_check(found.unwrap_or(ACCEPTED));
        tally.same("one record over", found, Some(BAD_COUNT));
    }
}

fn full_sheet(tally: &mut Tally) {
    let sheet = limit_cases::filled(&mut Rng::new(1, 1));
    let bytes = sheet.to_bytes();
    tally.same("a full sheet's bytes", bytes.len(), 65_536);
    for asked in Asked::outward(0, 1).both_ways() {
        let text = answer(&input_of(asked, &bytes));
        tally.claim(text.starts_with("1 "), || format!("a full sheet, {asked}: {text}"));
    }
}

/// What is drawn for full-size comparisons is true, and has its number of blocks: 40 places have 40 × 39 pairs.
fn full_nets(tally: &mut Tally) {
    for kind in full::KINDS {
        for (places, wanted, least) in [(1, 9, 0), (2, 9, 2), (9, 0, 9), (40, 1_100, 1_098), (40, 9_999, 1_560)] {
            let name = format!("{kind:?} of {places} places");
            let sheet = full::sheet(kind, places, wanted, 3, 1);
            check_gives(tally, &name, &sheet, ACCEPTED);
            tally.same(&name, [sheet.places.len(), sheet.offices.len()], [places, 3]);
            let count = sheet.blocks.len();
            let fits = least <= count && (count <= wanted || wanted == 0);
            tally.claim(fits, || format!("{name}: {count} blocks where {wanted} are wanted"));
        }
    }
}
