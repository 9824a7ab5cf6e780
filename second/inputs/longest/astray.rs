//! Rings past the last place, where walks to it go round until 16, 17 or 18 is due. The check gives 11. Inward a walk to
//! the last place begins where the office stands.

use crate::inputs::longest::case::{listed, refused, Case, Question};
use crate::inputs::longest::maps::*;
use crate::inputs::rng::Rng;
use crate::rules::refusal::{UNREACHED, WALK_EMPTY, WALK_NO_BLOCK, WALK_TOO_LONG};
use crate::rules::sheet::{Cell, Sheet};

pub fn all(rng: &mut Rng) -> Vec<Case> {
    let mut cases = vec![
        astray("past the last place", ring_past_the_last(drawn(rng, 1_024, CORNERS)), round_and_round(1_023)),
        astray("one place fewer", ring_past_the_last(drawn(rng, 1_023, CORNERS)), round_and_round(1_022)),
        too_long_before_empty(),
        without_a_block(),
    ];
    cases.extend(raised_lows());
    cases
}

fn astray(name: &'static str, map: Sheet, questions: Vec<Question>) -> Case {
    Case { name, map, check: UNREACHED, questions }
}

/// The last refinement from place 0 is there again, with the longest road behind it and the longest diagonal ahead.
fn round_and_round(last: u32) -> Vec<Question> {
    vec![
        listed(&[last], 0, &[[0, 0, 97_088_700_393, 0]], 0),
        refused(&[last, last], (0, 1), WALK_TOO_LONG),
        refused(&[last, last], (5, 2), WALK_TOO_LONG),
        listed(&[last, last, 5], 0, &[[2, 327_675, 327_675, 5]], 6 + 6 + 5),
        refused(&[last, last, 5], (0, 2), WALK_TOO_LONG),
        listed(&[0], last, &[[0, 0, 97_088_700_393, 0]], 0).inward(),
        refused(&[0, 0], (last, 1), WALK_TOO_LONG).inward(),
        refused(&[5, 5], (last, 2), WALK_TOO_LONG).inward(),
        // The office that stands at q comes when the two before it have left their places.
        listed(&[0, 0, last], last, &[[2, 0, 0, 0]], 1 + 1).inward(),
        refused(&[0, 0, last], (last, 2), WALK_TOO_LONG).inward(),
        listed(&[last, 3], 5, &[[1, 131_070, 131_070, 2]], 3 + 2).inward(),
    ]
}

/// Place 1, in the crowd's cell that is nearest to the last place, gives an interval of 22 lengths. The refinement that
/// would come there a second time is the one for which 16 is due; without 16 it would be refused by 18.
fn too_long_before_empty() -> Case {
    let mut map = ring_past_the_last(crowd());
    map.places[1].cell = Cell::at(31, 31);
    map.blocks[1].low = u32::MAX - 1;
    let questions = vec![
        refused(&[1_023, 1_023], (0, 1), WALK_TOO_LONG),
        refused(&[0, 0], (1_023, 1), WALK_TOO_LONG).inward(),
    ];
    astray("16 before 18", map, questions)
}

/// Place 0 has no block: 17 for an interval from there, and for a walk that comes there; but not where it is sought.
fn without_a_block() -> Case {
    let mut map = ring_past_the_last(crowd());
    map.blocks.remove(0);
    let round = [[0, 66_976_770, 66_976_770, 1_022]];
    let questions = vec![
        refused(&[1_023], (0, 1), WALK_NO_BLOCK),
        refused(&[1_023, 1_023], (1, 1), WALK_NO_BLOCK),
        listed(&[0, 0], 1, &round, 2_044),
        refused(&[0], (1_023, 1), WALK_NO_BLOCK).inward(),
        refused(&[1, 1], (1_023, 1), WALK_NO_BLOCK).inward(),
        listed(&[1, 1], 0, &round, 2_044).inward(),
        listed(&[0], 0, &[[0, 0, 0, 0]], 0).inward(),
    ];
    astray("a place without a block", map, questions)
}

/// Low ratios of place 0, where the walk from place 1 comes after 1,022 stages with 66,976,770 behind it. Its high end
/// is then that of place 991 in cell (31,30): 64,879,650 walked, and 94,193,582,058 by the crow distance 89,830. Inward
/// the walk from place 0 itself comes there again with a stage more on both.
fn raised_lows() -> Vec<Case> {
    let offices = [1_023, 1_022];
    let list = [[1, 66_911_235, 66_911_235, 1_021], [0, 94_258_461_688, 94_258_461_708, 1_022]];
    let towards = [[0, 94_258_461_688, 94_258_461_708, 1_022], [1, 94_258_527_223, 94_258_527_243, 1_023]];
    let last_list = vec![listed(&offices, 1, &list, 2_043), listed(&[1, 0], 1_023, &towards, 2_045).inward()];
    let empty = || [refused(&offices, (1, 2), WALK_EMPTY), refused(&[1, 1], (1_023, 1), WALK_EMPTY).inward()];
    let empty_at_once = [refused(&[1_023], (0, 1), WALK_EMPTY), refused(&[1, 0], (1_023, 1), WALK_EMPTY).inward()];
    // No answer has a larger low end: from no other cell are the ends so far, not even with a stage walked.
    let largest = [[0, 97_088_700_371, 97_088_700_393, 0]];
    let largest_low = [listed(&[1_023], 0, &largest, 0), listed(&[0], 1_023, &largest, 0).inward()];
    let empty_next = [refused(&[1_023, 1_023], (0, 1), WALK_EMPTY), refused(&[0, 0], (1_023, 1), WALK_EMPTY).inward()];
    vec![
        raised_low("the largest low ratio", u32::MAX, [empty(), empty_at_once].concat()),
        raised_low("the largest low ratio but one", u32::MAX - 1, [empty(), largest_low, empty_next].concat()),
        raised_low("the last low ratio that leaves a length", 4_166_801_549, last_list),
        raised_low("the first low ratio that leaves none", 4_166_801_550, empty().to_vec()),
    ]
}

fn raised_low(name: &'static str, low: u32, questions: Vec<Question>) -> Case {
    let mut map = ring_past_the_last(crowd());
    map.blocks[0].low = low;
    astray(name, map, questions)
}
