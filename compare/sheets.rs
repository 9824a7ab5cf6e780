//! Which sheets are compared: of program size by the second program's makers; of full size, each in a true form and in
//! damaged ones; and the longest walks.

use crate::inputs::damage;
use crate::inputs::damage::walk::{goes_round, WALK_FAULTS};
use crate::inputs::draw::gazetteer::{numbered, NUMBERS};
use crate::inputs::draw::true_sheet;
use crate::inputs::edges::edge::Edge;
use crate::inputs::full;
use crate::inputs::longest;
use crate::inputs::longest::case::Case;
use crate::inputs::make;
use crate::inputs::marked::place;
use crate::inputs::rng::Rng;
use crate::rules::limits::*;
use crate::rules::sheet::{Cell, Sheet};

/// Every fourth sheet is one that walks fall over; the others are those that the programs are compared on.
pub fn small(rng: &mut Rng, seed: u64, index: u64, edges: &[Edge]) -> Vec<u8> {
    if index % 4 < 3 {
        let mut input = make::input(seed, index / 4 * 3 + index % 4, edges);
        return input.split_off(PROGRAM_HEAD_BYTES.min(input.len()));
    }
    let mut sheet = true_sheet(rng);
    rng.pick(&WALK_FAULTS)(rng, &mut sheet);
    sheet.to_bytes()
}

/// A full-size net in its forms: true; with walks that go round; with other walks that fail; with any damage, twice;
/// with a gazetteer number that is 0 or another's; with a section that is one record too long; with some bytes too few
/// or too many. The second program takes up to M × N steps where walks go round and looks at all M offices in each:
/// there, and on loop posts, M is small.
pub fn full(rng: &mut Rng, seed: u64, index: u64) -> Vec<Vec<u8>> {
    let turn = index as usize;
    let kind = full::KINDS[turn % full::KINDS.len()];
    let most = *OFFICES.end() as usize;
    let offices = if kind == full::Kind::Loop { 20 } else { [most, most - 1, 1_000][turn / 4 % 3] };
    let blocks = [*BLOCKS.end() as usize, 0, 200_000][turn / 4 % 3];
    let mut sheet = full::sheet(kind, *PLACES.end() as usize, blocks, offices, seed.wrapping_add(index));
    let cells: Vec<Cell> = sheet.places.iter().map(|place| place.cell).collect();
    sheet.places = numbered(rng, &cells, NUMBERS[turn % NUMBERS.len()]);
    let few = |count: usize| Sheet { offices: sheet.offices[..count.min(offices)].to_vec(), ..sheet.clone() };
    let mut round = few(20);
    goes_round(rng, &mut round);
    let mut fallen = sheet.clone();
    WALK_FAULTS[1 + turn % 3](rng, &mut fallen);
    let damaged = damage::damaged(rng, &few(100));
    let again = damage::damaged(rng, &few(100));
    let misnumbered = misnumbered(rng, &few(100));
    let over = one_over(&sheet, turn % 4);
    let mut cut = sheet.to_bytes();
    cut.resize(cut.len() + 5 - rng.pick(&[1, 4, 6, 9]), 0);
    let forms = [sheet, round, fallen, damaged, again, misnumbered, over];
    let mut forms: Vec<Vec<u8>> = forms.iter().map(Sheet::to_bytes).collect();
    forms.push(cut);
    forms
}

/// A late place without a number, or with that of an early one.
fn misnumbered(rng: &mut Rng, sheet: &Sheet) -> Sheet {
    let mut sheet = sheet.clone();
    let last = sheet.places.len() - 1;
    let early = rng.below(last);
    let late = rng.pick(&[last, early + 1]);
    sheet.places[late].gazetteer = rng.pick(&[0, sheet.places[early].gazetteer, sheet.places[early].gazetteer]);
    sheet
}

/// The cases of the longest walks in turn, for each index with places of its own.
pub fn longest(seed: u64, index: u64) -> Case {
    let mut cases = longest::all(&mut Rng::new(seed, index));
    let turn = index as usize % cases.len();
    cases.swap_remove(turn)
}

fn one_over(sheet: &Sheet, section: usize) -> Sheet {
    let mut over = sheet.clone();
    match section {
        0 => over.places.push(place([0, 0, 1])),
        1 => over.stages.resize(*STAGES.end() as usize + 1, sheet.stages[0]),
        2 => over.blocks.resize(*BLOCKS.end() as usize + 1, sheet.blocks[0]),
        _ => over.offices.resize(*OFFICES.end() as usize + 1, 0),
    }
    over
}
