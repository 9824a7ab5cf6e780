//! Single faults at the edge of each rule, and several faults at once, with the number that is due.
//! Most are changes of the paper's marked sheet.

mod bytes;
pub mod edge;
mod layout;
mod places;
mod truth;

use edge::Edge;

pub fn all() -> Vec<Edge> {
    let mut edges = places::all();
    edges.extend(layout::all());
    edges.extend(bytes::all());
    edges.extend(truth::all());
    edges
}
