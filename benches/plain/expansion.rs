//! The search from q along the stages, or inward against them, until k offices are settled (incremental network
//! expansion): no quadtree is read.

use crate::plain::roads::{add_up, packed, unpacked, Queue, Roads, NO_ROAD};
use crate::plain::sections::{Sections, MOST_PLACES};
use crate::rules::limits::INWARD;
use std::cmp::Reverse;

/// The roads in one direction, and the offices at each place.
pub struct Net {
    /// From q on; inward each stage the other way.
    roads: Roads,
    /// The offices at u stand from first[u] to first[u + 1].
    first: Vec<u32>,
    offices: Vec<u32>,
}

/// An office listed: its road length and number.
pub type Found = (u32, u32);

impl Net {
    pub fn of(sections: &Sections, direction: u32) -> Net {
        let mut first = vec![0; sections.place_count() + 1];
        (0..sections.office_count()).for_each(|office| first[sections.stand(office) + 1] += 1);
        add_up(&mut first);
        let mut next = first.clone();
        let mut offices = vec![0; sections.office_count()];
        for office in 0..offices.len() {
            let at = &mut next[sections.stand(office)];
            offices[*at as usize] = office as u32;
            *at += 1;
        }
        let roads = Roads::of(sections);
        Net { roads: if direction == INWARD { roads.reversed() } else { roads }, first, offices }
    }

    /// The k offices nearest by road, by length and then number; k is at most the offices that can be reached.
    pub fn nearest(&self, q: usize, k: usize) -> Vec<Found> {
        let mut found = Vec::with_capacity(2 * k);
        let mut known = [NO_ROAD; MOST_PLACES];
        known[q] = 0;
        let mut queue = Queue::from(vec![Reverse(packed(0, q))]);
        let mut last = 0;
        while let Some(Reverse(next)) = queue.pop() {
            let (length, place) = unpacked(next);
            // Offices as far off as the last of k may still have lower numbers.
            if found.len() >= k && length > last {
                break;
            }
            if length == known[place] {
                last = length;
                let here = self.first[place] as usize..self.first[place + 1] as usize;
                found.extend(self.offices[here].iter().map(|&office| (length, office)));
                self.roads.spread(length, place, &mut known, |word, _| queue.push(Reverse(word)));
            }
        }
        found.sort_unstable();
        found.truncate(k);
        found
    }
}
