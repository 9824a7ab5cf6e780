//! The stages that leave each place side by side, and road lengths over them by Dijkstra.

use crate::plain::sections::*;
use crate::plain::tournament::Tournament;
use std::cmp::Reverse;
use std::collections::BinaryHeap;

/// The length where there is no road.
pub const NO_ROAD: u32 = u32::MAX;

/// Places that wait, each as length × most places + place.
pub type Queue = BinaryHeap<Reverse<u64>>;

/// Those of u stand from first[u] to first[u + 1].
pub struct Roads {
    first: Vec<u32>,
    heads: Vec<u32>,
    lengths: Vec<u32>,
}

#[inline(always)]
pub fn packed(length: u32, place: usize) -> u64 {
    u64::from(length) * MOST_PLACES as u64 + place as u64
}

#[inline(always)]
pub fn unpacked(word: u64) -> (u32, usize) {
    ((word / MOST_PLACES as u64) as u32, (word % MOST_PLACES as u64) as usize)
}

impl Roads {
    pub fn of(sections: &Sections) -> Roads {
        let stages = sections.stage_count();
        let (mut heads, mut lengths) = (Vec::with_capacity(stages), Vec::with_capacity(stages));
        let mut first = vec![0; sections.place_count() + 1];
        for stage in sections.stages.chunks_exact(STAGE_BYTES) {
            first[word(stage, 0) as usize + 1] += 1;
            heads.push(word(stage, 1));
            lengths.push(word(stage, 2));
        }
        add_up(&mut first);
        Roads { first, heads, lengths }
    }

    /// The same stages the other way.
    pub fn reversed(&self) -> Roads {
        let mut first = vec![0; self.first.len()];
        self.heads.iter().for_each(|&head| first[head as usize + 1] += 1);
        add_up(&mut first);
        let (mut heads, mut lengths) = (vec![0; self.heads.len()], vec![0; self.heads.len()]);
        let mut next = first.clone();
        for tail in 0..self.places() {
            for (head, length) in self.leaving(tail) {
                let at = next[head] as usize;
                (heads[at], lengths[at]) = (tail as u32, length);
                next[head] += 1;
            }
        }
        Roads { first, heads, lengths }
    }

    pub fn places(&self) -> usize {
        self.first.len() - 1
    }

    /// Head and length of each stage that leaves u.
    #[inline(always)]
    pub fn leaving(&self, u: usize) -> impl Iterator<Item = (usize, u32)> + '_ {
        let own = self.first[u] as usize..self.first[u + 1] as usize;
        self.heads[own.clone()].iter().map(|&head| head as usize).zip(self.lengths[own].iter().copied())
    }

    /// Head and length of the stage of u that has the colour.
    #[inline(always)]
    pub fn stage(&self, u: usize, colour: usize) -> (usize, u32) {
        let at = self.first[u] as usize + colour;
        (self.heads[at] as usize, self.lengths[at])
    }

    /// The lengths from u to every place, by the heap of the standard library.
    pub fn lengths_from(&self, u: usize, known: &mut [u32], queue: &mut Queue) {
        known.fill(NO_ROAD);
        known[u] = 0;
        queue.clear();
        queue.push(Reverse(packed(0, u)));
        while let Some(Reverse(next)) = queue.pop() {
            let (length, place) = unpacked(next);
            if length == known[place] {
                self.spread(length, place, known, |word, _| queue.push(Reverse(word)));
            }
        }
    }

    /// The same by the library's tournament of all places.
    pub fn lengths_by_tournament(&self, u: usize, known: &mut [u32], waiting: &mut Tournament) {
        known.fill(NO_ROAD);
        known[u] = 0;
        waiting.restart(u64::MAX);
        waiting.change(u, packed(0, u));
        while waiting.least() != u64::MAX {
            let (length, place) = unpacked(waiting.least());
            waiting.change(place, u64::MAX);
            self.spread(length, place, known, |word, head| waiting.change(head, word));
        }
    }

    /// Lowers the length of each place one stage on, and says so.
    #[inline(always)]
    pub fn spread(&self, length: u32, place: usize, known: &mut [u32], mut lowered: impl FnMut(u64, usize)) {
        for (head, more) in self.leaving(place) {
            let onward = length + more;
            if onward < known[head] {
                known[head] = onward;
                lowered(packed(onward, head), head);
            }
        }
    }

    /// The lengths between all places, row u being those from u.
    pub fn all_pairs(&self, table: &mut [u32]) {
        let mut queue = Queue::new();
        for (u, row) in table.chunks_exact_mut(self.places()).enumerate() {
            self.lengths_from(u, row, &mut queue);
        }
    }
}

/// From how many each place has to where those of each place begin.
pub fn add_up(counts: &mut [u32]) {
    for i in 1..counts.len() {
        counts[i] += counts[i - 1];
    }
}
