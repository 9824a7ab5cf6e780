//! Road distances between all pairs of places, by Floyd and Warshall.

use crate::rules::sheet::Sheet;

const NO_ROAD: u64 = u64::MAX;

pub struct Roads {
    places: usize,
    distances: Vec<u64>,
}

impl Roads {
    pub fn of(sheet: &Sheet) -> Roads {
        let places = sheet.places.len();
        let mut distances = vec![NO_ROAD; places * places];
        for u in 0..places {
            distances[u * places + u] = 0;
        }
        for s in &sheet.stages {
            distances[s.tail as usize * places + s.head as usize] = u64::from(s.length);
        }
        for middle in 0..places {
            through(&mut distances, places, middle);
        }
        Roads { places, distances }
    }

    pub fn all_reached(&self) -> bool {
        !self.distances.contains(&NO_ROAD)
    }

    pub fn between(&self, u: usize, v: usize) -> u64 {
        self.distances[u * self.places + v]
    }

    /// All distances by u and then v.
    pub fn in_order(&self) -> &[u64] {
        &self.distances
    }
}

/// Lets every road pass through the middle place as well.
fn through(distances: &mut [u64], places: usize, middle: usize) {
    let onward = distances[middle * places..][..places].to_vec();
    for row in distances.chunks_mut(places) {
        let first = row[middle];
        if first == NO_ROAD {
            continue;
        }
        for (known, &second) in row.iter_mut().zip(&onward) {
            // Saturating keeps "no road" the largest of all.
            *known = (*known).min(first.saturating_add(second));
        }
    }
}
