//! The kinds of full-size nets.

#[derive(Clone, Copy, PartialEq, Debug)]
pub enum Kind {
    /// Two-way roads to near places.
    Near,
    /// Neighbours of a grid, joined both ways by lengths of their own.
    Grid,
    /// As many stages as may leave a place, to near places.
    Eight,
    /// One loop post: roads of up to N−1 stages.
    Loop,
}

pub const KINDS: [Kind; 4] = [Kind::Near, Kind::Grid, Kind::Eight, Kind::Loop];
