//! Random nets of one-way stages in which every place can be reached from every other.

use crate::inputs::rng::Rng;
use crate::rules::limits::{LEAVING_MOST, LENGTHS};
use crate::rules::measure::crow;
use crate::rules::sheet::{Cell, Place, Stage};
use std::collections::BTreeMap;

#[derive(Clone, Copy, PartialEq)]
pub enum Net {
    /// One loop post through all places.
    Loop,
    /// Several loop posts, each begun and ended at places already reached.
    Loops,
    /// Two-way roads that branch.
    TwoWayTree,
    /// Two-way roads from place to place along the row of places.
    Chain,
}

pub const NETS: [Net; 4] = [Net::Loop, Net::Loops, Net::TwoWayTree, Net::Chain];

#[derive(Clone, Copy, PartialEq)]
pub enum Lengths {
    All(u32),
    UpTo(u32),
    /// The crow distance at one furlong to a cell, and up to half of it more.
    ByCrow,
    /// The crow distance at sixteen furlongs to a cell, and up to so many tenths of it more.
    OverCrow(u32),
}

pub const LENGTH_STYLES: [Lengths; 6] = [
    Lengths::All(1),
    Lengths::UpTo(3),
    Lengths::UpTo(20),
    Lengths::UpTo(*LENGTHS.end()),
    Lengths::All(*LENGTHS.end()),
    Lengths::ByCrow,
];

/// Stages by (tail, head), which is also the order of the sheet.
pub struct Drawing<'a> {
    pub places: &'a [Place],
    lengths: Lengths,
    stages: BTreeMap<(usize, usize), u32>,
    /// How many stages leave each place so far.
    pub leaving: Vec<usize>,
}

pub fn stages(rng: &mut Rng, places: &[Place], net: Net, lengths: Lengths, extra: usize) -> Vec<Stage> {
    let mut drawing = Drawing::new(places, lengths);
    match net {
        Net::Loop => drawing.one_loop(rng),
        Net::Loops => drawing.loops(rng),
        Net::TwoWayTree => drawing.two_way_tree(rng),
        Net::Chain => drawing.chain(rng),
    }
    for _ in 0..extra {
        let (tail, head) = (rng.below(places.len()), rng.below(places.len()));
        drawing.add(rng, tail, head);
    }
    drawing.stages()
}

impl<'a> Drawing<'a> {
    pub fn new(places: &'a [Place], lengths: Lengths) -> Drawing<'a> {
        Drawing { places, lengths, stages: BTreeMap::new(), leaving: vec![0; places.len()] }
    }

    pub fn stages(&self) -> Vec<Stage> {
        let stage = |(&(tail, head), &length): (&(usize, usize), &u32)| Stage {
            tail: tail as u32,
            head: head as u32,
            length,
        };
        self.stages.iter().map(stage).collect()
    }

    /// Adds the stage if the layout rules let it stand.
    pub fn add(&mut self, rng: &mut Rng, tail: usize, head: usize) {
        let full = self.leaving[tail] == LEAVING_MOST;
        if tail == head || full || self.stages.contains_key(&(tail, head)) {
            return;
        }
        let length = self.length(rng, tail, head);
        self.stages.insert((tail, head), length);
        self.leaving[tail] += 1;
    }

    fn length(&self, rng: &mut Rng, tail: usize, head: usize) -> u32 {
        match self.lengths {
            Lengths::All(length) => length,
            Lengths::UpTo(most) => rng.between(*LENGTHS.start(), most),
            Lengths::ByCrow => {
                let least = self.along_crow(tail, head, 1);
                (least + rng.between(0, least / 2)).clamp(*LENGTHS.start(), *LENGTHS.end())
            }
            Lengths::OverCrow(tenths) => {
                let least = self.along_crow(tail, head, 16);
                (least + rng.between(0, least * tenths / 10)).min(*LENGTHS.end())
            }
        }
    }

    /// The crow distance at so many furlongs to a cell.
    fn along_crow(&self, tail: usize, head: usize, furlongs: u64) -> u32 {
        let cell = crow(Cell::at(0, 0), Cell::at(1, 0));
        (crow(self.places[tail].cell, self.places[head].cell).0 * furlongs / cell.0) as u32
    }

    pub fn one_loop(&mut self, rng: &mut Rng) {
        let count = self.places.len();
        let mut order: Vec<usize> = (0..count).collect();
        rng.shuffle(&mut order);
        for i in 0..count {
            self.add(rng, order[i], order[(i + 1) % count]);
        }
    }

    fn loops(&mut self, rng: &mut Rng) {
        let mut reached = 1;
        while reached < self.places.len() {
            let most = (self.places.len() - reached).min(4);
            let fresh = 1 + rng.below(most);
            let mut at = self.place_with_room(rng, reached);
            for next in reached..reached + fresh {
                self.add(rng, at, next);
                at = next;
            }
            let back = rng.below(reached);
            self.add(rng, at, back);
            reached += fresh;
        }
    }

    fn two_way_tree(&mut self, rng: &mut Rng) {
        for next in 1..self.places.len() {
            let from = self.place_with_room(rng, next);
            self.add(rng, from, next);
            self.add(rng, next, from);
        }
    }

    fn chain(&mut self, rng: &mut Rng) {
        let mut order: Vec<usize> = (0..self.places.len()).collect();
        order.sort_by_key(|&u| self.places[u].cell);
        for pair in order.windows(2) {
            self.add(rng, pair[0], pair[1]);
            self.add(rng, pair[1], pair[0]);
        }
    }

    /// A place among the first so many from which one more stage may leave.
    fn place_with_room(&mut self, rng: &mut Rng, among: usize) -> usize {
        let mut place = rng.below(among);
        while self.leaving[place] == LEAVING_MOST {
            place = (place + 1) % among;
        }
        place
    }
}
