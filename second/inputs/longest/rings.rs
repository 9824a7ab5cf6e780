//! Rings through all places. They tell the truth: no road is longer than 67,042,305, and 2^32-1 times the shortest crow
//! distance, over 4,096, is 67,108,863. So no office is listed before it arrives while another waits.

use crate::inputs::longest::case::{listed, Case, Question};
use crate::inputs::longest::maps::*;
use crate::inputs::rng::Rng;
use crate::rules::refusal::ACCEPTED;
use crate::rules::sheet::Sheet;

pub fn all(rng: &mut Rng) -> Vec<Case> {
    vec![
        truth("a ring", ring(drawn(rng, 1_024, CORNERS)), ring_questions()),
        truth("a ring, the other corners", ring(drawn(rng, 1_024, OTHER_CORNERS)), corner_questions()),
        truth("a ring along the diagonal", ring(diagonal()), diagonal_questions()),
        one_furlong_fewer(rng),
        one_ratio_lower(rng),
        one_place_fewer(rng),
    ]
}

fn truth(name: &'static str, map: Sheet, mut questions: Vec<Question>) -> Case {
    let last = map.places.len() as u32 - 1;
    let inward: Vec<Question> = questions.iter().map(|question| mirrored(question, last)).collect();
    questions.extend(inward);
    Case { name, map, check: ACCEPTED, questions }
}

/// Inward, with the last place less u for each place u: from an office to q are as many stages as were from q to the
/// office. The first and the last place are as far from each other as before, and so are any two along the diagonal.
fn mirrored(outward: &Question, last: u32) -> Question {
    let offices: Vec<u32> = outward.offices.iter().map(|place| last - place).collect();
    let (list, total) = outward.due.as_ref().expect("a ring tells the truth");
    let list: Vec<[u64; 4]> = list.iter().map(|&[number, low, high, stages, _]| [number, low, high, stages]).collect();
    listed(&offices, last - outward.asked.q, &list, *total).inward()
}

/// The longest diagonal at once; and with a second office, the longest road.
fn corner_questions() -> Vec<Question> {
    vec![
        listed(&[1_023], 0, &[[0, 0, 97_088_700_393, 0]], 0),
        listed(&[0], 1_023, &[[0, 0, 97_088_700_393, 0]], 0),
        listed(&[1_023, 1_023], 0, &[[0, 67_042_305, 67_042_305, 1_023]], 2_046),
    ]
}

/// All offices go on in step: when one is listed after s stages, those still under way have made s + 1 if their number
/// is lower, s if it is higher.
fn ring_questions() -> Vec<Question> {
    let list = [
        [3, 0, 0, 0],
        [1, 33_553_920, 33_553_920, 512],
        [0, 67_042_305, 67_042_305, 1_023],
        [2, 67_042_305, 67_042_305, 1_023],
    ];
    let mut questions = corner_questions();
    for (k, total) in [(1, 3), (2, 513 + 512 + 512), (3, 1_023 + 512 + 1_023), (4, 1_023 + 512 + 1_023)] {
        questions.push(listed(&[1_023, 512, 1_023, 0], 0, &list[..k], total));
    }
    let last = [[0, 67_042_305, 67_042_305, 1_023], [1, 67_042_305, 67_042_305, 1_023]];
    questions.push(listed(&[511, 511], 512, &last, 2_046));
    questions.push(listed(&[1_022, 1_022], 1_023, &last, 2_046));
    questions
}

/// The office that is left alone is listed under way, its high end the last one worked out: from (2,2), (512,512) and
/// (1022,1022) the crow distances are 92,410, 46,250 and 90.
fn diagonal_questions() -> Vec<Question> {
    vec![
        listed(&[1_023, 1], 0, &[[1, 65_535, 65_535, 1], [0, 131_070, 96_899_039_207, 2]], 3),
        listed(&[512, 1_023], 0, &[[0, 33_553_920, 33_553_920, 512], [1, 33_553_920, 48_530_193_908, 512]], 1_024),
        listed(&[1_022, 1_023], 0, &[[0, 66_976_770, 66_976_770, 1_022], [1, 66_976_770, 161_348_609, 1_022]], 2_044),
    ]
}

fn one_furlong_fewer(rng: &mut Rng) -> Case {
    let mut map = ring(drawn(rng, 1_024, CORNERS));
    map.stages[511].length -= 1;
    let list = [[0, 67_042_304, 67_042_304, 1_023], [1, 67_042_304, 67_042_304, 1_023]];
    truth("a ring, one furlong fewer", map, vec![listed(&[1_023, 1_023], 0, &list, 2_046)])
}

fn one_ratio_lower(rng: &mut Rng) -> Case {
    let mut map = ring(drawn(rng, 1_024, CORNERS));
    map.blocks[0].high -= 1;
    truth("a ring, one ratio lower", map, vec![listed(&[1_023], 0, &[[0, 0, 97_088_700_370, 0]], 0)])
}

fn one_place_fewer(rng: &mut Rng) -> Case {
    let questions = vec![
        listed(&[1_022], 0, &[[0, 0, 97_088_700_393, 0]], 0),
        listed(&[1_022, 1_022], 0, &[[0, 66_976_770, 66_976_770, 1_022]], 2_044),
    ];
    truth("a ring, one place fewer", ring(drawn(rng, 1_023, CORNERS)), questions)
}
