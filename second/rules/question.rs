//! The question: the layout, refusals 7 to 9, then the walk that lists the k nearest offices.

use crate::rules::asked::Asked;
use crate::rules::layout;
use crate::rules::limits::*;
use crate::rules::map::Map;
use crate::rules::measure::Interval;
use crate::rules::refusal::*;
use crate::rules::sheet::Sheet;

/// What a question returns besides the words of its slices.
#[derive(Clone, Copy, PartialEq, Debug)]
pub struct Outcome {
    pub number: Number,
    pub count: u64,
    pub refinements: u64,
}

impl Outcome {
    pub fn refused(number: Number) -> Outcome {
        Outcome { number, count: 0, refinements: 0 }
    }
}

/// An office that waits to be listed.
#[derive(Clone, Copy, PartialEq, Debug)]
pub struct Waiting {
    pub number: usize,
    /// The place where it stands.
    pub stand: usize,
    /// The place to which its road runs.
    pub sought: usize,
    pub via: usize,
    pub walked: u64,
    pub stages: u64,
    pub interval: Interval,
}

impl Waiting {
    fn low_key(&self) -> (u64, usize) {
        (self.interval.low, self.number)
    }

    fn high_key(&self) -> (u64, usize) {
        (self.interval.high, self.number)
    }
}

/// Told of every refinement that is due: the office before it, and what comes of it.
pub type Watch<'a> = &'a mut dyn FnMut(&Waiting, &Result<Waiting, Number>);

pub fn question(bytes: &[u8], asked: Asked, answer: &mut [u64], working: &mut [u64]) -> Outcome {
    question_watched(bytes, asked, answer, working, &mut |_, _| {})
}

pub fn question_watched(
    bytes: &[u8],
    asked: Asked,
    answer: &mut [u64],
    working: &mut [u64],
    watch: Watch,
) -> Outcome {
    let sheet = match layout::read(bytes) {
        Ok(sheet) => sheet,
        Err(number) => return Outcome::refused(number),
    };
    if asked.q as usize >= sheet.places.len() || !DIRECTIONS.contains(&asked.direction) {
        return Outcome::refused(BAD_Q_OR_DIRECTION);
    }
    let k = asked.k as usize;
    if k == 0 || k > sheet.offices.len() {
        return Outcome::refused(BAD_K);
    }
    let answer_words = ANSWER_WORDS * k;
    let working_words = WORKING_WORDS * sheet.offices.len();
    if answer.len() < answer_words || working.len() < working_words {
        return Outcome::refused(SHORT_SLICES);
    }
    // The working words end as 0 on every way out of the walk, which keeps its own notes.
    working[..working_words].fill(0);
    answer[..answer_words].fill(0);
    match walk(&Map::of(&sheet), asked, watch) {
        Ok((list, refinements)) => {
            for (words, office) in answer.chunks_mut(ANSWER_WORDS).zip(&list) {
                words.copy_from_slice(&answer_record(&sheet, office));
            }
            Outcome { number: ACCEPTED, count: k as u64, refinements }
        }
        Err(number) => Outcome::refused(number),
    }
}

fn answer_record(sheet: &Sheet, office: &Waiting) -> [u64; ANSWER_WORDS] {
    let gazetteer = u64::from(sheet.places[office.stand].gazetteer);
    [office.number as u64, office.interval.low, office.interval.high, office.stages, gazetteer]
}

/// The offices listed, in order, and the total of refinements; k is at most the offices.
fn walk(map: &Map, asked: Asked, watch: Watch) -> Result<(Vec<Waiting>, u64), Number> {
    let mut waiting = start(map, asked)?;
    let mut list = Vec::new();
    let mut refinements = 0;
    while list.len() < asked.k as usize {
        let leader = leader_among(&waiting);
        if comes_before_all_others(&waiting, leader) {
            list.push(waiting.remove(leader));
        } else {
            let refined = refine(map, &waiting[leader]);
            watch(&waiting[leader], &refined);
            waiting[leader] = refined?;
            refinements += 1;
        }
    }
    Ok((list, refinements))
}

/// Every office with its first interval, both tests for one before the next.
pub fn start(map: &Map, asked: Asked) -> Result<Vec<Waiting>, Number> {
    let mut waiting = Vec::new();
    for (number, &stand) in map.sheet.offices.iter().enumerate() {
        let stand = stand as usize;
        let (via, sought) = asked.road(stand);
        let interval = kept(map.interval(via, sought).ok_or(WALK_NO_BLOCK)?)?;
        waiting.push(Waiting { number, stand, sought, via, walked: 0, stages: 0, interval });
    }
    Ok(waiting)
}

fn leader_among(waiting: &[Waiting]) -> usize {
    let mut leader = 0;
    for (i, office) in waiting.iter().enumerate() {
        if office.low_key() < waiting[leader].low_key() {
            leader = i;
        }
    }
    leader
}

fn comes_before_all_others(waiting: &[Waiting], leader: usize) -> bool {
    let last = waiting[leader].high_key();
    waiting.iter().enumerate().all(|(i, other)| i == leader || last < other.low_key())
}

/// The office one stage further on its named road.
pub fn refine(map: &Map, office: &Waiting) -> Result<Waiting, Number> {
    if office.stages + 1 >= map.places() as u64 {
        return Err(WALK_TOO_LONG);
    }
    let block = map.covering(office.via, office.sought).ok_or(WALK_NO_BLOCK)?;
    let stage = map.stage_named(block);
    let walked = office.walked + u64::from(stage.length);
    let via = stage.head as usize;
    let onward = map.interval(via, office.sought).ok_or(WALK_NO_BLOCK)?.beyond(walked);
    let interval = kept(office.interval.overlap(onward))?;
    Ok(Waiting { via, walked, stages: office.stages + 1, interval, ..*office })
}

/// The interval that would be kept, unless it is empty.
fn kept(interval: Interval) -> Result<Interval, Number> {
    if interval.is_empty() {
        return Err(WALK_EMPTY);
    }
    Ok(interval)
}
