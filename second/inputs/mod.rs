//! Inputs for the comparison and the self test: true sheets drawn at random, the same damaged, and fixed cases at
//! the edges of the rules, at the program's limits and of the longest walks.

pub mod damage;
pub mod draw;
pub mod edges;
pub mod full;
pub mod limit_cases;
pub mod longest;
pub mod make;
pub mod marked;
pub mod rng;
