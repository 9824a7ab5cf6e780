//! The places and stages of a full-size sheet, by its kind.

use crate::inputs::draw::gazetteer::{numbered, Numbers};
use crate::inputs::draw::net::{Drawing, Lengths};
use crate::inputs::draw::places::{cells, in_rows, Shape};
use crate::inputs::full::kind::Kind;
use crate::inputs::rng::Rng;
use crate::rules::limits::LEAVING_MOST;
use crate::rules::measure::crow;
use crate::rules::sheet::{Place, Stage};

/// Two-way roads that meet at a place, where there is room for one-way stages besides.
const ROADS_MOST: usize = 5;

pub fn net(rng: &mut Rng, kind: Kind, count: usize) -> (Vec<Place>, Vec<Stage>) {
    let (cells, side) = match kind {
        Kind::Grid => in_rows(rng, count),
        _ => (cells(rng, Shape::Spread, count), 0),
    };
    let places = numbered(&mut rng.aside(), &cells, Numbers::Spread);
    let lengths = match kind {
        Kind::Near => Lengths::OverCrow(5),
        Kind::Grid => Lengths::UpTo(1_000),
        Kind::Eight => Lengths::OverCrow(20),
        Kind::Loop => Lengths::UpTo(10_000),
    };
    let mut drawing = Drawing::new(&places, lengths);
    match kind {
        Kind::Near => near(rng, &mut drawing, LEAVING_MOST),
        Kind::Grid => grid(rng, &mut drawing, side),
        Kind::Eight => eight(rng, &mut drawing),
        Kind::Loop => drawing.one_loop(rng),
    }
    let stages = drawing.stages();
    (places, stages)
}

fn join(rng: &mut Rng, drawing: &mut Drawing, u: usize, v: usize) {
    drawing.add(rng, u, v);
    drawing.add(rng, v, u);
}

/// The other places, the nearest first.
fn by_nearness(places: &[Place], u: usize) -> Vec<usize> {
    let mut others: Vec<usize> = (0..places.len()).filter(|&v| v != u).collect();
    others.sort_by_cached_key(|&v| crow(places[u].cell, places[v].cell).0);
    others
}

fn near(rng: &mut Rng, drawing: &mut Drawing, most: usize) {
    span(rng, drawing, most);
    let count = drawing.places.len();
    let wanted: Vec<usize> = (0..count).map(|_| 2 + rng.below(most - 1)).collect();
    for u in 0..count {
        for v in by_nearness(drawing.places, u).into_iter().take(3 * most) {
            if drawing.leaving[u] < wanted[u] && drawing.leaving[v] < wanted[v] {
                join(rng, drawing, u, v);
            }
        }
    }
}

/// The shortest roads that join all places. Each part keeps a place with one road, so none is left alone.
fn span(rng: &mut Rng, drawing: &mut Drawing, most: usize) {
    let count = drawing.places.len();
    let mut pairs: Vec<(u64, usize, usize)> = Vec::new();
    for u in 0..count {
        pairs.extend((u + 1..count).map(|v| (crow(drawing.places[u].cell, drawing.places[v].cell).0, u, v)));
    }
    pairs.sort();
    let mut part: Vec<usize> = (0..count).collect();
    for (_, u, v) in pairs {
        let (old, new) = (part[u], part[v]);
        if old != new && drawing.leaving[u] < most && drawing.leaving[v] < most {
            join(rng, drawing, u, v);
            part.iter_mut().filter(|p| **p == old).for_each(|p| *p = new);
        }
    }
}

fn grid(rng: &mut Rng, drawing: &mut Drawing, side: usize) {
    for u in 0..drawing.places.len() {
        if u % side > 0 {
            join(rng, drawing, u - 1, u);
        }
        if u >= side {
            join(rng, drawing, u - side, u);
        }
    }
}

fn eight(rng: &mut Rng, drawing: &mut Drawing) {
    near(rng, drawing, ROADS_MOST);
    for u in 0..drawing.places.len() {
        for v in by_nearness(drawing.places, u).into_iter().take(2 * LEAVING_MOST) {
            drawing.add(rng, u, v);
        }
    }
}
