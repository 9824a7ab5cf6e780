//! Self test, part 1: what the paper prints, P1 to P10 (P2 to P4 at the scale of item 11 of
//! document 02, P9 and P10 with the gazetteer numbers of item 2), its list "Run, not proved", and the marked question
//! inward (item 4).

use crate::inputs::marked;
use crate::rules::asked::Asked;
use crate::rules::map::Map;
use crate::rules::measure::{code_of, crow, Interval};
use crate::rules::program::{answer, input_of};
use crate::rules::question::{refine, start, Waiting};
use crate::rules::roads::Roads;
use crate::rules::sheet::Sheet;
use crate::selftest::probe::{check_gives, question_asked};
use crate::tally::Tally;

pub fn run(tally: &mut Tally) {
    tally.same("the marked sheet's bytes", marked::sheet().to_bytes().len(), 316);
    printed(tally);
    printed_inward(tally);
    refused_both_ways(tally);
    words_in_order(tally);
    marked_measures(tally);
    marked_intervals(tally);
    marked_intervals_inward(tally);
    marked_questions(tally);
    layout_passes(tally);
    untrue_sheets(tally);
    one_office(tally);
}

fn program_prints(tally: &mut Tally, name: &str, sheet: &Sheet, asked: Asked, due: &str) {
    let input = input_of(asked, &sheet.to_bytes());
    let text = answer(&input);
    tally.met_text(&input, &text);
    tally.same(name, text.as_str(), due);
}

fn printed(tally: &mut Tally) {
    let sheet = marked::sheet();
    program_prints(tally, "k = 1", &sheet, Asked::outward(2, 1), "1 1\n2 5 5 1 102\n");
    program_prints(tally, "the printed case", &sheet, Asked::outward(2, 2), "2 5\n2 5 5 1 102\n0 11 11 2 101\n");
    let all = "3 5\n2 5 5 1 102\n0 11 11 2 101\n1 20 20 2 104\n";
    program_prints(tally, "k = 3", &sheet, Asked::outward(2, 3), all);
}

/// From the offices to place 2: from place 1 exactly 5, from place 0 exactly 11, from place 3 by way of place 0, from where
/// the length is exact, 9 + 11.
fn printed_inward(tally: &mut Tally) {
    let mut sheet = marked::sheet();
    program_prints(tally, "inward, k = 1", &sheet, Asked::inward(2, 1), "1 0\n2 5 5 0 102\n");
    program_prints(tally, "inward, as item 4 has it", &sheet, Asked::inward(2, 2), "2 0\n2 5 5 0 102\n0 11 11 0 101\n");
    let all = "3 0\n2 5 5 0 102\n0 11 11 0 101\n1 13 32 0 104\n";
    program_prints(tally, "inward, k = 3", &sheet, Asked::inward(2, 3), all);
    sheet.offices = vec![3, 3];
    let two = "2 2\n0 20 20 1 104\n1 20 20 1 104\n";
    program_prints(tally, "inward, two offices at place 3", &sheet, Asked::inward(2, 2), two);
}

/// The question at fault, whichever way the road runs.
fn refused_both_ways(tally: &mut Tally) {
    for (q, k, due) in [(2, 0, 8), (2, 4, 8), (4, 2, 7), (4, 4, 7)] {
        for asked in Asked::outward(q, k).both_ways() {
            program_prints(tally, &asked.to_string(), &marked::sheet(), asked, &format!("refused {due}\n"));
        }
    }
}

/// q, k, direction, low byte first.
fn words_in_order(tally: &mut Tally) {
    let mut input = vec![2, 0, 0, 0, 3, 0, 0, 0, 1, 0, 0, 0];
    input.extend(marked::sheet().to_bytes());
    let inward = "3 0\n2 5 5 0 102\n0 11 11 0 101\n1 13 32 0 104\n";
    tally.same("q = 2, k = 3, inward", answer(&input).as_str(), inward);
    for byte in 9..12 {
        let mut input = input.clone();
        input.swap(8, byte);
        tally.same("a direction of higher bytes", answer(&input).as_str(), "refused 7\n");
    }
}

fn marked_measures(tally: &mut Tally) {
    let sheet = marked::sheet();
    let cell = |u: usize| sheet.places[u].cell;
    tally.same("P1", [1, 2, 3].map(|u| code_of(cell(u))), [37, 148, 34]);
    tally.same("P2", crow(cell(0), cell(1)).0, 320);
    tally.same("P3", crow(cell(1), cell(3)).0, 202);
    tally.same("P4", crow(cell(2), cell(3)).0, 429);
    let roads = Roads::of(&sheet);
    tally.same("P5", roads.between(2, 3), 20);
    tally.same("P6", roads.between(0, 2), 11);
}

fn marked_intervals(tally: &mut Tally) {
    let sheet = marked::sheet();
    let map = Map::of(&sheet);
    let first = start(&map, Asked::outward(2, 1)).expect("the marked sheet is true");
    tally.same("P7", first_ends(&first), vec![(10, 30), (7, 20), (5, 15)]);
    let refined = refine(&map, &first[1]).expect("the marked sheet is true");
    tally.same("P8", (ends(refined.interval), refined.via), ((9, 20), 1));
}

/// P7 and P8 the other way: by the ratios 70 to 71 over 640, 115 to 308 over 429, 64 over 320.
fn marked_intervals_inward(tally: &mut Tally) {
    let sheet = marked::sheet();
    let map = Map::of(&sheet);
    let first = start(&map, Asked::inward(2, 1)).expect("the marked sheet is true");
    tally.same("P7 inward", first_ends(&first), vec![(11, 11), (13, 32), (5, 5)]);
    let refined = refine(&map, &first[1]).expect("the marked sheet is true");
    tally.same("P8 inward", (ends(refined.interval), refined.via), ((20, 20), 0));
}

fn ends(interval: Interval) -> (u64, u64) {
    (interval.low, interval.high)
}

fn first_ends(offices: &[Waiting]) -> Vec<(u64, u64)> {
    offices.iter().map(|office| ends(office.interval)).collect()
}

fn marked_questions(tally: &mut Tally) {
    let bytes = marked::sheet().to_bytes();
    check_gives(tally, "the check", &marked::sheet(), 0);
    let (one, list) = question_asked(tally, "P9", &bytes, Asked::outward(2, 1));
    tally.same("P9", (list, one.refinements), (vec![2, 5, 5, 1, 102], 1));
    let (two, list) = question_asked(tally, "P10", &bytes, Asked::outward(2, 2));
    tally.same("P10", (list, two.refinements), (vec![2, 5, 5, 1, 102, 0, 11, 11, 2, 101], 5));
}

/// These are said of the layout alone: a question that is refused for its k has passed the layout.
fn layout_passes(tally: &mut Tally) {
    let mut passes = |name: &str, due: u32, change: &dyn Fn(&mut Sheet)| {
        let mut sheet = marked::sheet();
        change(&mut sheet);
        let (outcome, _) = question_asked(tally, name, &sheet.to_bytes(), Asked::outward(2, 0));
        tally.same(name, outcome.number, due);
    };
    passes("x 1,023", 8, &|s| s.places[2].cell.x = 1_023);
    passes("x 1,024", 3, &|s| s.places[2].cell.x = 1_024);
    passes("length 65,535", 8, &|s| s.stages[3].length = 65_535);
    passes("length 65,536", 4, &|s| s.stages[3].length = 65_536);
    passes("level 10", 8, &|s| s.blocks[6].level = 10);
    passes("level 11", 5, &|s| s.blocks[6].level = 11);
}

fn untrue_sheets(tally: &mut Tally) {
    let mut raised = marked::sheet();
    raised.blocks[5].low = 65;
    check_gives(tally, "low 65", &raised, 14);
    program_prints(tally, "low 65", &raised, Asked::outward(2, 2), "refused 14\n");
    let mut removed = marked::sheet();
    removed.blocks.retain(|b| b.place != 3);
    check_gives(tally, "no block of 3", &removed, 12);
    program_prints(tally, "no block of 3", &removed, Asked::outward(2, 2), "refused 12\n");
}

fn one_office(tally: &mut Tally) {
    let mut sheet = marked::sheet();
    sheet.offices = vec![3];
    program_prints(tally, "one office", &sheet, Asked::outward(2, 1), "1 0\n0 7 20 0 104\n");
    program_prints(tally, "one office inward", &sheet, Asked::inward(2, 1), "1 0\n0 13 32 0 104\n");
    sheet.offices = vec![2];
    program_prints(tally, "one office inward, at q", &sheet, Asked::inward(2, 1), "1 0\n0 0 0 0 103\n");
    program_prints(tally, "one office, at q", &sheet, Asked::outward(2, 1), "1 0\n0 0 0 0 103\n");
}
