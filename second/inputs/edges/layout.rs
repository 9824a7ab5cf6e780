//! Edges of the layout rules 4 to 6, one below, at and one above, and faults in two sections at once.

use crate::inputs::edges::edge::{layout, Edge};
use crate::inputs::marked::{block, place, stage};
use crate::rules::sheet::Sheet;

pub fn all() -> Vec<Edge> {
    let mut edges = stage_edges();
    edges.extend(stage_order_edges());
    edges.extend(block_edges());
    edges.extend(block_colour_edges());
    edges.extend(block_order_edges());
    edges.extend(office_edges());
    edges.extend(two_at_once());
    edges
}

fn stage_edges() -> Vec<Edge> {
    vec![
        layout(4, "length 0", |s| s.stages[3].length = 0),
        layout(0, "length 1", |s| s.stages[3].length = 1),
        layout(0, "length 65,534", |s| s.stages[3].length = 65_534),
        layout(0, "length 65,535", |s| s.stages[3].length = 65_535),
        layout(4, "length 65,536", |s| s.stages[3].length = 65_536),
        layout(4, "length 2^32-1", |s| s.stages[0].length = u32::MAX),
        layout(4, "tail N", |s| s.stages[5].tail = 4),
        layout(0, "tail N-1", |s| s.stages[4] = stage([3, 0, 1])).and(|s| {
            s.stages[5] = stage([3, 1, 1]);
            s.blocks.remove(5);
        }),
        layout(4, "head N", |s| s.stages[5].head = 4),
        layout(0, "head N-1", |s| s.stages[4].head = 3),
        layout(4, "tail is head", |s| s.stages[5].head = 3),
        layout(4, "first tail is head", |s| s.stages[0].head = 0),
    ]
}

fn stage_order_edges() -> Vec<Edge> {
    vec![
        layout(4, "equal stages", |s| s.stages.insert(5, stage([3, 0, 9]))),
        layout(4, "equal ends, other length", |s| s.stages.insert(0, stage([0, 1, 5]))),
        layout(4, "heads descend", |s| s.stages.swap(0, 1)),
        layout(4, "tails descend", |s| s.stages.swap(4, 5)),
        layout(0, "eight stages leave", |s| star(s, 8)),
        layout(4, "nine stages leave", |s| star(s, 9)),
        layout(0, "no stages, no blocks", |s| {
            s.stages.clear();
            s.blocks.clear();
        }),
    ]
}

/// Ten more places, and so many stages that leave place 3.
fn star(sheet: &mut Sheet, leaving: u32) {
    for i in 0..10 {
        sheet.places.push(place([100 + i, 100, 9_000 + i]));
    }
    sheet.stages.pop();
    for head in 0..leaving {
        sheet.stages.push(stage([3, 4 + head, 1]));
    }
}

fn block_edges() -> Vec<Edge> {
    let last = |words: [u32; 6]| move |s: &mut Sheet| s.blocks[6] = block(words);
    vec![
        layout(5, "block place N", |s| s.blocks[6].place = 4),
        layout(5, "block place 2^32-1", |s| s.blocks[6].place = u32::MAX),
        layout(0, "level 9", |s| s.blocks[6].level = 9),
        layout(0, "level 10", |s| s.blocks[6].level = 10),
        layout(5, "level 11", |s| s.blocks[6].level = 11),
        layout(5, "level 16", |s| s.blocks[6].level = 16),
        layout(5, "level 2^32-1", |s| s.blocks[6].level = u32::MAX),
        layout(0, "code 4^10-1", last([3, 1_048_575, 0, 0, 0, 0])),
        layout(5, "code 4^10", last([3, 1_048_576, 0, 0, 0, 0])),
        layout(5, "code 4^10 at level 10", last([3, 1_048_576, 10, 0, 0, 0])),
        layout(5, "code 2^32-1", last([3, u32::MAX, 0, 0, 0, 0])),
        layout(5, "level 1, code 3", last([3, 3, 1, 0, 0, 0])),
        layout(0, "level 1, code 4", last([3, 4, 1, 0, 0, 0])),
        layout(5, "level 1, code 5", last([3, 5, 1, 0, 0, 0])),
        layout(5, "level 2, code 8", last([3, 8, 2, 0, 0, 0])),
        layout(0, "level 2, code 16", last([3, 16, 2, 0, 0, 0])),
        layout(0, "level 9, code 3 x 4^9", last([3, 786_432, 9, 0, 0, 0])),
        layout(5, "level 10, code 4^9", last([3, 262_144, 10, 0, 0, 0])),
        layout(5, "level 9, code 4^9+1", last([3, 262_145, 9, 0, 0, 0])),
    ]
}

fn block_colour_edges() -> Vec<Edge> {
    vec![
        layout(0, "colour one below the number leaving", |s| s.blocks[3].colour = 1),
        layout(5, "colour at the number leaving", |s| s.blocks[3].colour = 2),
        layout(5, "colour 1 of one", |s| s.blocks[6].colour = 1),
        layout(5, "colour 2^32-1", |s| s.blocks[0].colour = u32::MAX),
        layout(5, "a block where no stage leaves", |s| {
            s.stages.pop();
        }),
        layout(0, "low one below high", |s| s.blocks[6].low = 307),
        layout(0, "low is high", |s| s.blocks[6].low = 308),
        layout(5, "low one above high", |s| s.blocks[6].low = 309),
        layout(0, "low and high 2^32-1", |s| s.blocks[6] = block([3, 0, 10, 0, u32::MAX, u32::MAX])),
        layout(5, "low 2^32-1", |s| s.blocks[6] = block([3, 0, 10, 0, u32::MAX, u32::MAX - 1])),
        layout(0, "both ratios 0", |s| s.blocks[6] = block([3, 0, 10, 0, 0, 0])),
    ]
}

fn block_order_edges() -> Vec<Edge> {
    let insert = |at: usize, words: [u32; 6]| move |s: &mut Sheet| s.blocks.insert(at, block(words));
    vec![
        layout(0, "a gap of one code", |s| s.blocks[1] = block([0, 37, 0, 0, 76, 77])),
        layout(0, "blocks touch", |s| s.blocks[1] = block([0, 36, 0, 0, 76, 77])),
        layout(5, "blocks overlap by one", |s| s.blocks[1] = block([0, 35, 0, 0, 76, 77])),
        layout(5, "the larger overlaps the next", |s| s.blocks[0].level = 2),
        layout(5, "equal codes", |s| s.blocks[1] = block([0, 32, 1, 0, 76, 77])),
        layout(5, "equal codes, other levels", insert(0, [0, 32, 0, 0, 1, 1])),
        layout(5, "codes descend", |s| s.blocks.swap(0, 1)),
        layout(5, "places descend", |s| s.blocks.swap(5, 6)),
        layout(5, "a place comes again", insert(4, [0, 512, 0, 0, 1, 1])),
        layout(5, "nothing after level 10", insert(6, [2, 1_048_575, 0, 0, 1, 1])),
        layout(5, "inside the one before", insert(4, [1, 63, 0, 0, 1, 1])),
        layout(0, "just after the one before", insert(4, [1, 64, 0, 0, 1, 1])),
        layout(0, "same code at another place", insert(0, [0, 0, 0, 0, 0, 0])),
        layout(0, "no blocks", |s| s.blocks.clear()),
    ]
}

fn office_edges() -> Vec<Edge> {
    vec![
        layout(0, "office N-1", |s| s.offices[2] = 3),
        layout(6, "office N", |s| s.offices[2] = 4),
        layout(6, "first office 2^32-1", |s| s.offices[0] = u32::MAX),
        layout(0, "all offices at one place", |s| s.offices = vec![1, 1, 1, 1]),
        layout(0, "no offices", |s| s.offices.clear()),
    ]
}

fn two_at_once() -> Vec<Edge> {
    let place = |s: &mut Sheet| s.places[3].cell.y = 1_024;
    let twice = |s: &mut Sheet| s.places[3].gazetteer = 101;
    let a_stage = |s: &mut Sheet| s.stages[5].length = 0;
    let a_block = |s: &mut Sheet| s.blocks[0].low = 117;
    let office = |s: &mut Sheet| s.offices[0] = 4;
    vec![
        layout(3, "bad place, bad stage", place).and(a_stage),
        layout(3, "bad place, bad block", place).and(a_block),
        layout(3, "bad place, bad office", place).and(office),
        layout(4, "bad stage, bad block", a_stage).and(a_block),
        layout(4, "bad stage, bad office", a_stage).and(office),
        layout(5, "bad block, bad office", a_block).and(office),
        layout(3, "number 0, bad stage", |s| s.places[3].gazetteer = 0).and(a_stage),
        layout(3, "a number twice, bad stage", twice).and(a_stage),
        layout(3, "a number twice, bad block", twice).and(a_block),
        layout(3, "a number twice, bad office", twice).and(office),
        layout(3, "a number twice, untrue ratio", twice).and(|s| s.blocks[5].low = 65),
        layout(3, "all four bad", place).and(a_stage).and(a_block).and(office),
        layout(6, "bad office, untrue ratio", office).and(|s| s.blocks[5].low = 65),
    ]
}
