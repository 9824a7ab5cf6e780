//! Self test: item 4 of document 02. A direction that is neither, before and after other faults; walks that fail inward;
//! what the two directions have in common, and that they differ.

use crate::inputs::damage::walk::WALK_FAULTS;
use crate::inputs::draw::net::Net;
use crate::inputs::draw::{ask_well, true_sheet, Plan, NO_DIRECTIONS};
use crate::inputs::edges;
use crate::inputs::edges::edge::Due;
use crate::inputs::limit_cases::of_two_words;
use crate::inputs::marked;
use crate::inputs::rng::Rng;
use crate::rules::asked::Asked;
use crate::rules::limits::*;
use crate::rules::program::{answer, input_of};
use crate::rules::question::{question, Outcome};
use crate::rules::refusal::*;
use crate::rules::sheet::Sheet;
use crate::selftest::probe::question_gives;
use crate::selftest::random::one_sheet;
use crate::selftest::readings::blind_sheet;
use crate::tally::Tally;

/// At least so many of sixteen sheets with loop posts are to have other offices, or other roads, in the two directions.
const DIFFER_LEAST: u64 = 4;

pub fn run(tally: &mut Tally, seed: u64, count: u64) {
    neither(tally);
    neither_in_the_program(tally);
    first_intervals_inward(tally);
    not_where_it_stands(tally);
    inputs_of_two_words(tally, seed, count);
    exchanged(tally, seed, count);
    loops(tally, seed, count);
}

/// 7 for the direction is due where 7 for the place is: after the layout, before k and the slices.
fn neither(tally: &mut Tally) {
    let sheet = marked::sheet();
    let mut bad_office = marked::sheet();
    bad_office.offices[0] = 4;
    for direction in NO_DIRECTIONS {
        for (q, k) in [(2, 2), (4, 2), (u32::MAX, 2), (2, 0), (2, 4), (4, 0), (4, 4)] {
            let asked = Asked { q, k, direction };
            question_gives(tally, "neither direction", &sheet, asked, 7);
            question_gives(tally, "neither direction, a bad office", &bad_office, asked, 6);
            let lent_nothing = question(&sheet.to_bytes(), asked, &mut [], &mut []);
            tally.same("neither direction, short slices", lent_nothing, Outcome::refused(7));
        }
    }
    for (q, k, due) in [(3, 3, 0), (4, 3, 7), (4, 0, 7), (3, 0, 8), (3, 4, 8), (u32::MAX, u32::MAX, 7)] {
        question_gives(tally, "inward at the edges of q and k", &sheet, Asked::inward(q, k), due);
    }
}

/// The program has looked at the sheet by then, and checked it: whatever else is at fault comes before 7, but k.
fn neither_in_the_program(tally: &mut Tally) {
    let mut large = marked::sheet();
    large.offices = vec![0; PROGRAM_OFFICES + 1];
    let mut sheets = vec![(large.to_bytes(), PROGRAM_LIMIT)];
    for edge in edges::all() {
        match edge.due {
            // The layout passes, and nothing is said of the check.
            Due::Layout(ACCEPTED) => continue,
            Due::Check(ACCEPTED) => sheets.push((edge.sheet, BAD_Q_OR_DIRECTION)),
            Due::Layout(number) | Due::Check(number) => sheets.push((edge.sheet, number)),
        }
    }
    for direction in NO_DIRECTIONS {
        for (i, (sheet, due)) in sheets.iter().enumerate() {
            let input = input_of(Asked { q: 2, k: i as u32 % 4, direction }, sheet);
            let text = answer(&input);
            tally.met_text(&input, &text);
            tally.same("neither direction in the program", text, format!("refused {due}\n"));
        }
    }
}

/// The sheet of reading 2 with its block at place 1, which sees place 0 by an interval of 1 to 0; no other has a block.
fn blind_but_place_1(offices: &[u32]) -> Sheet {
    let mut sheet = blind_sheet(offices);
    sheet.blocks[0].place = 1;
    sheet
}

/// Towards place 0, by the number of the office; where it stands there, nothing is asked of a block.
fn first_intervals_inward(tally: &mut Tally) {
    let mut towards_0 = |name: &str, offices: &[u32], due: Number| {
        question_gives(tally, name, &blind_but_place_1(offices), Asked::inward(0, 1), due);
    };
    towards_0("inward, 18 then 17", &[1, 2], 18);
    towards_0("inward, 17 then 18", &[2, 1], 17);
    towards_0("inward, a far 17", &[0, 2], 17);
    towards_0("inward, a far 18", &[0, 0, 1], 18);
    towards_0("inward, near alone", &[0, 0], 0);
    let without_a_block = blind_but_place_1(&[0, 0, 1]);
    question_gives(tally, "outward, where place 0 has no block", &without_a_block, Asked::outward(0, 1), 17);
}

/// Inward the blocks of q are not asked, those of the offices' places are; outward it is the other way round.
fn not_where_it_stands(tally: &mut Tally) {
    let without = |place: u32| {
        let mut sheet = marked::sheet();
        sheet.blocks.retain(|b| b.place != place);
        sheet
    };
    let inward = Asked::inward(2, 2);
    question_gives(tally, "inward, no block of q", &without(2), inward, 0);
    question_gives(tally, "outward, no block of q", &without(2), Asked::outward(2, 2), 17);
    question_gives(tally, "inward, no block of an office's place", &without(3), inward, 17);
    question_gives(tally, "outward, no block of an office's place", &without(3), Asked::outward(2, 2), 0);
}

/// An input without a direction is never answered: its count of places is 2 or more and no direction, or 1; then there
/// is no stage, and the count of stages is read as a gazetteer number, 0.
fn inputs_of_two_words(tally: &mut Tally, seed: u64, count: u64) {
    for index in 0..count {
        let input = of_two_words(&mut Rng::new(seed, index));
        let text = answer(&input);
        tally.met_text(&input, &text);
        tally.claim(text.starts_with("refused "), || format!("two words before the sheet, {index} of seed {seed}: {text}"));
    }
}

/// What comes of a question for all offices, with the list but for its gazetteer numbers.
fn ends_and_stages(sheet: &Sheet, asked: Asked) -> (Outcome, Vec<u64>) {
    let mut list = vec![0; ANSWER_WORDS * sheet.offices.len()];
    let mut working = vec![0; WORKING_WORDS * sheet.offices.len()];
    let outcome = question(&sheet.to_bytes(), asked, &mut list, &mut working);
    (outcome, list.chunks(ANSWER_WORDS).flat_map(|record| record[..ANSWER_WORDS - 1].to_vec()).collect())
}

/// Offices at one place alone: outward from u with all of them at v is inward to v with all of them at u, true sheet or
/// not.
fn exchanged(tally: &mut Tally, seed: u64, count: u64) {
    for index in 0..count {
        let mut rng = Rng::new(seed, index);
        let mut sheet = true_sheet(&mut rng);
        if index % 2 == 1 {
            rng.pick(&WALK_FAULTS)(&mut rng, &mut sheet);
        }
        let [u, v] = [(); 2].map(|()| rng.below(sheet.places.len()) as u32);
        let k = 1 + rng.below(3);
        let at = |place: u32| Sheet { offices: vec![place; k], ..sheet.clone() };
        let outward = ends_and_stages(&at(v), Asked::outward(u, k as u32));
        let inward = ends_and_stages(&at(u), Asked::inward(v, k as u32));
        tally.same(&format!("from {u} to {v} on sheet {index} of seed {seed}"), inward, outward);
    }
}

/// Sheets with loop posts, asked both ways and held against the direct readings. Many list other offices inward.
fn loops(tally: &mut Tally, seed: u64, count: u64) {
    let (mut other_offices, mut other_walks) = (0, 0);
    for index in 0..count {
        let mut rng = Rng::new(seed, index);
        let plan = Plan { net: rng.pick(&[Net::Loop, Net::Loops]), ..Plan::any(&mut rng) };
        let sheet = plan.sheet(&mut rng);
        let asked = ask_well(&mut rng, &sheet).both_ways();
        one_sheet(tally, &format!("loops {index} of seed {seed}"), &sheet.to_bytes(), &asked);
        let [outward, inward] = asked.map(|asked| ends_and_stages(&sheet, asked));
        let offices = |list: &[u64]| list.chunks(ANSWER_WORDS - 1).map(|record| record[0]).collect::<Vec<u64>>();
        other_offices += u64::from(offices(&outward.1) != offices(&inward.1));
        other_walks += u64::from(outward != inward);
    }
    let often = 16 * other_offices >= DIFFER_LEAST * count;
    tally.claim(often, || format!("the two directions list other offices on {other_offices} of {count} sheets"));
    println!("of {count} sheets with loop posts, {other_offices} list other offices inward, {other_walks} other ends");
}
