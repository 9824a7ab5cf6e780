//! All pairs of road lengths by others, in C++ (peers.cpp): a peer is there only where it was installed when the bench
//! was built, and none where there was no C++ compiler (`peers` is not set).

use crate::rules::sheet::Sheet;

/// In the order of the numbers by which peers.cpp knows them.
pub const NAMES: [&str; 3] = ["LEMON", "Boost", "priority_queue"];

/// What to install, and what to do then.
pub const WHERE_FROM: &str =
    "They come with Debian's liblemon-dev, libboost-dev and g++; once they are there, remove target/bench.";

#[cfg(peers)]
mod entries {
    use std::ffi::c_void;

    extern "C" {
        pub fn peer_ready(
            name: u32,
            places: usize,
            count: usize,
            tails: *const u32,
            heads: *const u32,
            lengths: *const u32,
        ) -> *mut c_void;
        pub fn peer_all_pairs(peer: *mut c_void, table: *mut u32);
        pub fn peer_done(peer: *mut c_void);
    }
}

/// One that has read the stages of a sheet in which every place can be reached from every other.
#[cfg(peers)]
pub struct Peer {
    handle: *mut std::ffi::c_void,
    places: usize,
}

#[cfg(not(peers))]
pub enum Peer {}

#[cfg(peers)]
impl Peer {
    pub fn ready(name: usize, sheet: &Sheet) -> Option<Peer> {
        let tails: Vec<u32> = sheet.stages.iter().map(|stage| stage.tail).collect();
        let heads: Vec<u32> = sheet.stages.iter().map(|stage| stage.head).collect();
        let lengths: Vec<u32> = sheet.stages.iter().map(|stage| stage.length).collect();
        let (name, places, count) = (name as u32, sheet.places.len(), sheet.stages.len());
        // SAFETY: each of the three has `count` words, every tail and head is a place, and nothing is kept of them.
        let handle = unsafe {
            entries::peer_ready(name, places, count, tails.as_ptr(), heads.as_ptr(), lengths.as_ptr())
        };
        (!handle.is_null()).then_some(Peer { handle, places })
    }

    /// Row u of the table becomes the lengths from place u.
    pub fn all_pairs(&self, table: &mut [u32]) {
        assert!(table.len() == self.places * self.places, "a word for each pair");
        // SAFETY: the peer is ready, and the table has a word for each pair.
        unsafe { entries::peer_all_pairs(self.handle, table.as_mut_ptr()) }
    }
}

#[cfg(peers)]
impl Drop for Peer {
    fn drop(&mut self) {
        // SAFETY: it is ready, and not used again.
        unsafe { entries::peer_done(self.handle) }
    }
}

#[cfg(not(peers))]
impl Peer {
    pub fn ready(_: usize, _: &Sheet) -> Option<Peer> {
        None
    }

    pub fn all_pairs(&self, _: &mut [u32]) {
        match *self {}
    }
}
