//! Road distances from one place to all others, by Dijkstra: all pairs by Floyd and Warshall are slow at full size.

use crate::rules::map::Map;
use std::cmp::Reverse;
use std::collections::BinaryHeap;

pub const NO_ROAD: u64 = u64::MAX;

pub fn distances_from(map: &Map, q: usize) -> Vec<u64> {
    let mut known = vec![NO_ROAD; map.places()];
    known[q] = 0;
    let mut reached = BinaryHeap::from([Reverse((0, q))]);
    while let Some(Reverse((distance, u))) = reached.pop() {
        if distance > known[u] {
            continue;
        }
        for stage in map.leaving(u) {
            let (v, onward) = (stage.head as usize, distance + u64::from(stage.length));
            if onward < known[v] {
                known[v] = onward;
                reached.push(Reverse((onward, v)));
            }
        }
    }
    known
}
