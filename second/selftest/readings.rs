//! Self test, part 5: a case for each settled point of docs/DECISIONS.md (1 to 19) that can be put as one. 6, 7, 9
//! and 18 are among the edges; 12 is looked at in every refinement of a true sheet (demands); 15 is put by the longest
//! walks; 19 is put with 5. 17 is of a test that request 8 took out. Of the readings of item 11, 27 is among the largest
//! numbers, 28 with what the paper prints and among the edges, 29 among the edges. Those of item 2 are put last here, and
//! among the edges; the fifth word is looked at in every list of a true sheet (demands). Those of item 4 are put in
//! directions.

use crate::inputs::longest::maps::ring;
use crate::inputs::marked::{self, block, place, stage};
use crate::rules::asked::Asked;
use crate::rules::limits::ANSWER_WORDS;
use crate::rules::map::Map;
use crate::rules::measure::crow;
use crate::rules::program::{answer, input_of};
use crate::rules::refusal::Number;
use crate::rules::sheet::{Cell, Sheet};
use crate::selftest::oracle;
use crate::selftest::probe::{check_gives, question_asked, question_gives};
use crate::tally::Tally;

pub fn run(tally: &mut Tally) {
    idle_blocks_come_last(tally);
    first_intervals_by_office(tally);
    program_prints_bytes(tally);
    program_checks_before_asking(tally);
    program_limits_twice(tally);
    crushed_interval(tally);
    no_offices_or_one_place(tally);
    place_without_blocks(tally);
    old_via_is_never_first(tally);
    largest_numbers(tally);
    gazetteer_numbers(tally);
}

fn program(tally: &mut Tally, name: &str, input: &[u8], due: Number) {
    let text = answer(input);
    tally.met_text(input, &text);
    tally.same(name, text, format!("refused {due}\n"));
}

fn idle_blocks_come_last(tally: &mut Tally) {
    let mut sheet = marked::sheet();
    sheet.blocks.insert(0, block([0, 0, 0, 0, 0, 0]));
    check_gives(tally, "reading 1, 15 alone", &sheet, 15);
    sheet.blocks[7].low = 116;
    check_gives(tally, "reading 1, 14 of the last", &sheet, 14);
}

/// Place 0 sees place 1 by an interval of 1 to 0 and place 2 not at all.
pub fn blind_sheet(offices: &[u32]) -> Sheet {
    Sheet {
        places: vec![place([0, 0, 71]), place([1, 0, 72]), place([9, 9, 73])],
        stages: vec![stage([0, 1, 1]), stage([1, 2, 1]), stage([2, 0, 1])],
        blocks: vec![block([0, 0, 1, 0, 1, 1])],
        offices: offices.to_vec(),
    }
}

fn first_intervals_by_office(tally: &mut Tally) {
    question_gives(tally, "reading 2, 18 then 17", &blind_sheet(&[1, 2]), Asked::outward(0, 1), 18);
    question_gives(tally, "reading 2, 17 then 18", &blind_sheet(&[2, 1]), Asked::outward(0, 1), 17);
    question_gives(tally, "reading 2, a far 17", &blind_sheet(&[0, 2]), Asked::outward(0, 1), 17);
    question_gives(tally, "reading 2, a far 18", &blind_sheet(&[0, 0, 1]), Asked::outward(0, 1), 18);
    question_gives(tally, "reading 2, near alone", &blind_sheet(&[0, 0]), Asked::outward(0, 1), 0);
}

fn program_prints_bytes(tally: &mut Tally) {
    let text = answer(&input_of(Asked::outward(2, 2), &marked::sheet().to_bytes()));
    tally.same("reading 3", text.as_bytes(), &b"2 5\n2 5 5 1 102\n0 11 11 2 101\n"[..]);
}

fn program_checks_before_asking(tally: &mut Tally) {
    let mut sheet = marked::sheet();
    sheet.blocks[5].low = 65;
    for (q, k) in [(4, 2), (2, 0), (u32::MAX, u32::MAX)] {
        for asked in Asked::outward(q, k).both_ways() {
            program(tally, "reading 4", &input_of(asked, &sheet.to_bytes()), 14);
            question_gives(tally, "reading 4, no check in a question", &sheet, asked, if q >= 4 { 7 } else { 8 });
        }
    }
}

fn program_limits_twice(tally: &mut Tally) {
    for length in 0..12 {
        program(tally, "reading 5, under 12 bytes", &vec![0; length], 20);
    }
    for length in 12..16 {
        program(tally, "reading 5, no whole word", &vec![0; length], 1);
    }
    program(tally, "reading 5, 65,536 bytes", &vec![0; 12 + 65_536], 2);
    program(tally, "reading 5, 65,537 bytes", &vec![0; 12 + 65_537], 20);
    program(tally, "reading 5, 65,535 bytes", &vec![0; 12 + 65_535], 1);
    program(tally, "reading 5, 65,540 bytes", &vec![0; 12 + 65_540], 20);
    let many = |places: u32, offices: usize, office: u32| Sheet {
        places: (0..places).map(|x| place([x, 0, 5_000 + x])).collect(),
        offices: vec![office; offices],
        ..Sheet::default()
    };
    let mut limits = |sheet: Sheet, due: Number| {
        program(tally, "reading 5", &input_of(Asked::outward(0, 1), &sheet.to_bytes()), due);
    };
    limits(many(128, 1, 0), 11);
    limits(many(129, 1, 0), 20);
    limits(many(129, 1, 129), 6);
    limits(many(1_024, 1, 0), 20);
    limits(many(1_025, 1, 0), 2);
    limits(many(2, 1_024, 0), 11);
    limits(many(2, 1_025, 0), 20);
    limits(many(2, 1_025, 2), 6);
    limits(many(2, 4_096, 0), 20);
    limits(many(2, 4_097, 0), 2);
}

fn crushed_interval(tally: &mut Tally) {
    let mut sheet = blind_sheet(&[1]);
    sheet.blocks[0].level = 10;
    sheet.blocks.extend([1, 2].map(|u| block([u, 0, 10, 0, 0, u32::MAX])));
    question_gives(tally, "reading 8, the question", &sheet, Asked::outward(0, 1), 18);
    check_gives(tally, "reading 8, the check", &sheet, 14);
}

fn no_offices_or_one_place(tally: &mut Tally) {
    let mut sheet = marked::sheet();
    sheet.offices.clear();
    for k in [0, 1, 4, u32::MAX] {
        question_gives(tally, "reading 10, M = 0", &sheet, Asked::outward(2, k), 8);
        question_gives(tally, "reading 10, q first", &sheet, Asked::outward(4, k), 7);
    }
    let lonely = Sheet { places: vec![place([1_023, 1_023, u32::MAX])], offices: vec![0, 0, 0], ..Sheet::default() };
    check_gives(tally, "reading 10, N = 1", &lonely, 0);
    for asked in Asked::outward(0, 3).both_ways() {
        let text = answer(&input_of(asked, &lonely.to_bytes()));
        let due = "3 0\n0 0 0 0 4294967295\n1 0 0 0 4294967295\n2 0 0 0 4294967295\n";
        tally.same("reading 10, N = 1", text.as_str(), due);
    }
}

fn place_without_blocks(tally: &mut Tally) {
    let mut sheet = marked::sheet();
    sheet.blocks.retain(|b| b.place != 2);
    check_gives(tally, "reading 11", &sheet, 12);
    sheet.blocks[4].colour = 0;
    check_gives(tally, "reading 11, 13 before", &sheet, 13);
    sheet.stages.pop();
    sheet.blocks.retain(|b| b.place != 3);
    check_gives(tally, "reading 11, 11 before", &sheet, 11);
}

/// Readings 13 and 14: the oracle has neither a test at the old via nor one for the onward interval
/// alone; here both new vias fail, one by 17, one by 18.
fn old_via_is_never_first(tally: &mut Tally) {
    let mut sheet = blind_sheet(&[2, 2]);
    sheet.blocks = vec![block([0, 0, 10, 0, 0, 5_000])];
    let asked = Asked::outward(0, 1);
    question_gives(tally, "reading 13", &sheet, asked, 17);
    tally.same("reading 13, the oracle", oracle::listing(&sheet, asked).err(), Some(17));
    // From (1,0) to (9,9) the crow distance is 770: 1 x 770 / 4,096 is 1 to 0.
    sheet.blocks.push(block([1, 0, 10, 0, 1, 1]));
    question_gives(tally, "reading 14", &sheet, asked, 18);
    tally.same("reading 14, the oracle", oracle::listing(&sheet, asked).err(), Some(18));
}

fn largest_numbers(tally: &mut Tally) {
    let (near, far) = (Cell::at(0, 0), Cell::at(1_023, 1_023));
    tally.same("the longest crow distance", crow(near, far).0, 92_591);
    tally.same("the shortest crow distance", crow(near, Cell::at(1, 0)).0, 64);
    ring_of_long_stages(tally);
}

/// Reading 16: a loop post of 1,024 places whose neighbours lie a whole loop apart.
fn ring_of_long_stages(tally: &mut Tally) {
    let mut sheet = ring((0..1_024).map(|x| Cell::at(x, 0)).collect());
    sheet.blocks.iter_mut().for_each(|b| b.high = 4_290_707_520);
    sheet.offices = vec![1_023, 0, 1];
    check_gives(tally, "reading 16, the longest road", &sheet, 0);
    let (outcome, list) = question_asked(tally, "reading 16", &sheet.to_bytes(), Asked::outward(1, 3));
    let offices: Vec<u64> = list.chunks(ANSWER_WORDS).map(|record| record[0]).collect();
    tally.same("reading 16, the list", (outcome.number, offices), (0, vec![2, 0, 1]));
    let reach = Map::of(&sheet).interval(1, 0).expect("covered").high;
    tally.same("reading 16, the tightest end", reach, 67_042_305);
    sheet.blocks[1].high -= 1;
    check_gives(tally, "reading 16, one tighter", &sheet, 14);
}

/// Item 2: q is a place number, also where another place has it for its gazetteer number.
fn gazetteer_numbers(tally: &mut Tally) {
    let mut sheet = marked::sheet();
    for q in 101..=104 {
        question_gives(tally, "q that is a gazetteer number", &sheet, Asked::outward(q, 1), 7);
    }
    // The second office is left alone, and is listed with its first interval.
    sheet.offices = vec![1, 1];
    let text = answer(&input_of(Asked::outward(2, 2), &sheet.to_bytes()));
    tally.same("two offices at one place", text.as_str(), "2 1\n0 5 5 1 102\n1 5 15 0 102\n");
    sheet = marked::sheet();
    sheet.places.iter_mut().zip([2, 3, 1, 4]).for_each(|(place, number)| place.gazetteer = number);
    let text = answer(&input_of(Asked::outward(2, 3), &sheet.to_bytes()));
    tally.same("numbers like those of places", text.as_str(), "3 5\n2 5 5 1 3\n0 11 11 2 2\n1 20 20 2 4\n");
}
