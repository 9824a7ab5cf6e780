//! Self test, part 2: on accepted sheets the list is that of brute force, and no refinement is wasted.

use crate::rules::asked::Asked;
use crate::rules::limits::*;
use crate::rules::question::{question_watched, Waiting};
use crate::rules::refusal::Number;
use crate::rules::sheet::{words_of, Sheet};
use crate::selftest::oracle::{from_and_to, road, Road};
use crate::selftest::plain;
use crate::tally::Tally;

/// One question on an accepted sheet, with all that was seen of it.
struct Seen<'a> {
    sheet: &'a Sheet,
    words: Vec<u32>,
    list: Vec<u64>,
    total: u64,
    steps: Vec<(Waiting, Waiting)>,
    /// For each place, how far an office there is in the direction of the question, and its named road.
    distances: Vec<u64>,
    roads: Vec<Road>,
}

pub fn hold(tally: &mut Tally, name: &str, sheet: &Sheet, asked: Asked) {
    let mut list = vec![0; ANSWER_WORDS * asked.k as usize];
    let mut working = vec![0; WORKING_WORDS * sheet.offices.len()];
    let mut steps = Vec::new();
    let mut watch = |before: &Waiting, after: &Result<Waiting, Number>| {
        steps.push((*before, after.expect("an accepted sheet")));
    };
    let bytes = sheet.to_bytes();
    let outcome = question_watched(&bytes, asked, &mut list, &mut working, &mut watch);
    let known = plain::roads(sheet);
    let runs: Vec<(usize, usize)> = (0..sheet.places.len()).map(|stand| from_and_to(asked, stand)).collect();
    let distances = runs.iter().map(|&(from, to)| known[from][to].expect("an accepted sheet") as u64).collect();
    let roads = runs.iter().map(|&(from, to)| road(sheet, from, to)).collect();
    let seen = Seen { sheet, words: words_of(&bytes), list, total: outcome.refinements, steps, distances, roads };
    seen.nearest_are_listed(tally, name);
    seen.steps_narrow(tally, name);
    seen.named_roads_are_shortest(tally, name);
    seen.steps_are_not_wasted(tally, name);
}

impl Seen<'_> {
    fn place(&self, office: usize) -> usize {
        self.sheet.offices[office] as usize
    }

    fn distance(&self, office: usize) -> u64 {
        self.distances[self.place(office)]
    }

    /// Of the place where an office stands: the third word of its record, the first of all being the count.
    fn gazetteer(&self, office: usize) -> u64 {
        u64::from(self.words[1 + 3 * self.place(office) + 2])
    }

    fn first_low(&self, office: usize) -> u64 {
        self.roads[self.place(office)].ends[0].expect("an accepted sheet").0 as u64
    }

    fn spent(&self, office: usize) -> u64 {
        self.steps.iter().filter(|(before, _)| before.number == office).count() as u64
    }

    /// Demand 2: all offices sorted by (D, number), the first k are the list, their ends enclose D. Each has the
    /// gazetteer number of its place.
    fn nearest_are_listed(&self, tally: &mut Tally, name: &str) {
        let mut order: Vec<usize> = (0..self.sheet.offices.len()).collect();
        order.sort_by_key(|&office| (self.distance(office), office));
        for (record, &office) in self.list.chunks(ANSWER_WORDS).zip(&order) {
            tally.same(name, record[0], office as u64);
            let distance = self.distance(office);
            tally.claim(record[1] <= distance && distance <= record[2], || format!("{name}: ends of {office}"));
            tally.same(name, record[3], self.spent(office));
            tally.same(name, record[4], self.gazetteer(office));
        }
    }

    fn steps_narrow(&self, tally: &mut Tally, name: &str) {
        for (before, after) in &self.steps {
            let (old, new, distance) = (before.interval, after.interval, self.distance(before.number));
            let narrows = old.low <= new.low && new.high <= old.high;
            tally.claim(narrows, || format!("{name}: a refinement of {} widens", before.number));
            let encloses = new.low <= distance && distance <= new.high;
            tally.claim(encloses, || format!("{name}: a refinement of {} loses D", before.number));
            let moved = before.via != before.sought && after.stages == before.stages + 1;
            tally.claim(moved, || format!("{name}: {} was refined where it had arrived", before.number));
            let arrived = after.via == after.sought;
            tally.claim(!arrived || new.low == new.high, || format!("{name}: arrived with open ends"));
        }
    }

    fn named_roads_are_shortest(&self, tally: &mut Tally, name: &str) {
        for (place, road) in self.roads.iter().enumerate() {
            let length = i128::from(self.distances[place]);
            let shortest = road.arrives && road.ends.last() == Some(&Ok((length, length)));
            tally.claim(shortest, || format!("{name}: the named road of {place}"));
        }
    }

    /// Demand 3: nothing for offices that begin beyond the last listed, at most a road for the others.
    fn steps_are_not_wasted(&self, tally: &mut Tally, name: &str) {
        tally.same(name, self.total, self.steps.len() as u64);
        let last = self.list[self.list.len() - ANSWER_WORDS] as usize;
        let mut bound = 0;
        for office in 0..self.sheet.offices.len() {
            let spent = self.spent(office);
            let stages = self.roads[self.place(office)].stages();
            let concerned = self.first_low(office) <= self.distance(last);
            tally.claim(concerned || spent == 0, || format!("{name}: refinements of far office {office}"));
            tally.claim(spent <= stages, || format!("{name}: {spent} refinements of office {office}"));
            bound += if concerned { stages } else { 0 };
        }
        tally.claim(self.total <= bound, || format!("{name}: {} refinements of {bound}", self.total));
    }
}
