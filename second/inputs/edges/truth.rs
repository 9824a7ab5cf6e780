//! Edges of the check (refusals 11 to 15) and several of its faults at once, so that the order matters.

use crate::inputs::edges::edge::{check, Edge};
use crate::inputs::marked::block;
use crate::rules::sheet::Sheet;

pub fn all() -> Vec<Edge> {
    let mut edges = ratio_edges();
    edges.extend(scale_edges());
    edges.extend(cover_edges());
    edges.extend(colour_and_road_edges());
    edges.extend(pair_orders());
    edges.extend(other_orders());
    edges
}

fn ratio_edges() -> Vec<Edge> {
    vec![
        check(0, "the marked sheet", |_| {}),
        check(0, "low 63 of place 2", |s| s.blocks[5].low = 63),
        check(14, "low 65 of place 2", |s| s.blocks[5].low = 65),
        check(14, "high 190 of place 2", |s| s.blocks[5].high = 190),
        check(0, "high 191 of place 2", |s| s.blocks[5].high = 191),
        check(14, "high 304 of place 3", |s| s.blocks[6].high = 304),
        check(0, "high 305 of place 3", |s| s.blocks[6].high = 305),
        check(0, "low 0", |s| s.blocks[5].low = 0),
        check(0, "high 2^32-1", |s| s.blocks[5].high = u32::MAX),
        check(14, "low 116 of place 0", |s| s.blocks[0].low = 116),
        check(14, "high 115 of place 0", |s| s.blocks[0].high = 115),
        check(14, "both ratios 0", |s| s.blocks[4] = block([1, 128, 3, 1, 0, 0])),
        check(0, "exact ratio of the last pair", |s| s.blocks[4].high = 65),
        check(14, "one above an exact ratio", |s| s.blocks[4] = block([1, 128, 3, 1, 65, 65])),
        check(14, "one below an exact ratio", |s| s.blocks[4] = block([1, 128, 3, 1, 63, 63])),
    ]
}

fn cover_edges() -> Vec<Edge> {
    let insert = |at: usize, words: [u32; 6]| move |s: &mut Sheet| s.blocks.insert(at, block(words));
    let remove = |at: usize| {
        move |s: &mut Sheet| {
            s.blocks.remove(at);
        }
    };
    vec![
        check(12, "the block of place 3 removed", remove(6)),
        check(12, "the first block removed", remove(0)),
        check(12, "a block of place 1 removed", remove(4)),
        check(12, "no blocks", |s| s.blocks.clear()),
        check(12, "cover ends one code early", |s| s.blocks[0] = block([0, 32, 0, 1, 115, 116])),
        check(0, "a block of one cell", |s| s.blocks[0] = block([0, 34, 0, 1, 115, 116])),
        check(0, "own cell left out", |s| s.blocks[5].level = 3),
        check(15, "own cell alone", insert(0, [0, 0, 0, 0, 0, 0])),
        check(15, "own cell and empty cells", insert(0, [0, 0, 2, 0, 0, 0])),
        check(15, "empty cells", insert(2, [0, 40, 1, 0, 0, 0])),
        check(15, "an empty cell at the end", insert(3, [0, 1_048_575, 0, 0, 0, 0])),
        check(15, "last own cell alone", |s| {
            s.blocks[6] = block([3, 0, 2, 0, 115, 116]);
            s.blocks.push(block([3, 34, 0, 0, 0, 0]));
            s.blocks.push(block([3, 36, 1, 0, 300, 308]));
            s.blocks.push(block([3, 128, 3, 0, 190, 191]));
        }),
    ]
}

/// In sixteenths and 1,024ths, the scale before item 11, the tightest ratios were 191 to 192 from place 3 to place 2 (107
/// by crow), and the least high one 308 from place 1 to place 3 (50). They are 190 to 191 (429) and 305 (202).
fn scale_edges() -> Vec<Edge> {
    let of_place_3 = |low: u32, high: u32| {
        move |s: &mut Sheet| {
            s.blocks[6] = block([3, 0, 3, 0, 115, 308]);
            s.blocks.push(block([3, 128, 3, 0, low, high]));
        }
    };
    vec![
        check(0, "the tightest ratios", of_place_3(190, 191)),
        check(14, "the tightest ratios of the old scale", of_place_3(191, 192)),
        check(0, "ratios that are true at both scales", of_place_3(190, 192)),
        check(0, "true at the new scale alone", |s| s.blocks[3].high = 305),
        check(14, "true at neither scale", |s| s.blocks[3].high = 304),
    ]
}

fn colour_and_road_edges() -> Vec<Edge> {
    vec![
        check(13, "wrong colour at the last pair of place 1", |s| s.blocks[4].colour = 0),
        check(13, "wrong colour at the first pair of place 1", |s| s.blocks[3].colour = 1),
        check(13, "a way round by a stage one too long", |s| s.blocks[0].colour = 0),
        check(11, "no stage to place 3", |s| {
            s.stages.remove(1);
            s.blocks[0].colour = 0;
        }),
        check(11, "no stage from place 3", |s| {
            s.stages.remove(5);
            s.blocks.remove(6);
        }),
        check(11, "no stages", |s| {
            s.stages.clear();
            s.blocks.clear();
        }),
        check(11, "no road to place 2", |s| {
            s.stages.remove(3);
            s.blocks[4].colour = 0;
        }),
    ]
}

fn wrong_colour_1_2(s: &mut Sheet) {
    s.blocks[4].colour = 0;
}

fn pair_orders() -> Vec<Edge> {
    vec![
        check(13, "13 at (1,2), 12 at (3,0)", |s| {
            wrong_colour_1_2(s);
            s.blocks.remove(6);
        }),
        check(12, "12 at (0,3), 13 at (1,2)", |s| {
            wrong_colour_1_2(s);
            s.blocks.remove(0);
        }),
        check(14, "14 at (0,3), 13 at (1,2)", |s| {
            wrong_colour_1_2(s);
            s.blocks[0].low = 116;
        }),
        check(14, "14 at (0,1), 12 at (0,2)", |s| {
            s.blocks[1].high = 76;
            s.blocks.remove(2);
        }),
        check(12, "12 at (0,1), 14 at (0,2)", |s| {
            s.blocks[2] = block([0, 128, 3, 0, 69, 69]);
            s.blocks.remove(1);
        }),
        check(14, "14 at (0,2), 12 at (0,3) though its block comes first", |s| {
            s.blocks[2] = block([0, 128, 3, 0, 69, 69]);
            s.blocks.remove(0);
        }),
        check(13, "13 and 14 at (1,2)", |s| s.blocks[4] = block([1, 128, 3, 0, 65, 65])),
    ]
}

fn other_orders() -> Vec<Edge> {
    let own_cell_of_0 = |s: &mut Sheet| s.blocks.insert(0, block([0, 0, 0, 0, 0, 0]));
    let with_15 = |due: u32, name: &'static str, change: fn(&mut Sheet)| {
        check(due, name, |s| {
            change(s);
            own_cell_of_0(s);
        })
    };
    vec![
        with_15(14, "15 of place 0, 14 of place 3", |s| s.blocks[6].low = 116),
        with_15(12, "15 of place 0, 12 of place 3", |s| {
            s.blocks.pop();
        }),
        with_15(13, "15 of place 0, 13 of place 1", wrong_colour_1_2),
        with_15(11, "11 and 15", |s| {
            s.stages.remove(5);
            s.blocks.remove(6);
        }),
        check(11, "11 of place 3, 12 of place 0", |s| {
            s.stages.remove(5);
            s.blocks.remove(6);
            s.blocks.remove(0);
        }),
        check(11, "11 at (0,3), 14 of place 1", |s| {
            s.stages.remove(1);
            s.blocks[0].colour = 0;
            s.blocks[4].low = 0;
            s.blocks[4].high = 0;
        }),
    ]
}
