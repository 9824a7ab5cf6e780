//! Edges of the layout rule 3: cells one below, at and one above, and gazetteer numbers.

use crate::inputs::edges::edge::{check, layout, Edge};
use crate::rules::sheet::{Cell, Sheet};

pub fn all() -> Vec<Edge> {
    let mut edges = cell_edges();
    edges.extend(gazetteer_edges());
    edges.extend(repeated_number_edges());
    edges
}

fn cell_edges() -> Vec<Edge> {
    vec![
        layout(0, "x 1,023", |s| s.places[2].cell.x = 1_023),
        layout(3, "x 1,024", |s| s.places[2].cell.x = 1_024),
        layout(3, "x 2^32-1", |s| s.places[0].cell.x = u32::MAX),
        layout(0, "y 1,022", |s| s.places[3].cell.y = 1_022),
        layout(0, "y 1,023", |s| s.places[3].cell.y = 1_023),
        layout(3, "y 1,024", |s| s.places[3].cell.y = 1_024),
        layout(0, "next cell", |s| s.places[3].cell = Cell::at(0, 1)),
        layout(3, "shared cell", |s| s.places[3].cell = Cell::at(0, 0)),
        layout(3, "neighbours share a cell", |s| s.places[2].cell = s.places[1].cell),
        layout(0, "x and y exchanged", |s| s.places[3].cell = Cell::at(4, 3)),
    ]
}

/// These gazetteer numbers for the places 0 to 3.
fn numbers(gazetteer: [u32; 4]) -> impl FnOnce(&mut Sheet) {
    move |s| s.places.iter_mut().zip(gazetteer).for_each(|(place, number)| place.gazetteer = number)
}

fn gazetteer_edges() -> Vec<Edge> {
    vec![
        layout(3, "number 0 of the first place", |s| s.places[0].gazetteer = 0),
        layout(3, "number 0 of a middle place", |s| s.places[2].gazetteer = 0),
        layout(3, "number 0 of the last place", |s| s.places[3].gazetteer = 0),
        layout(3, "all numbers 0", numbers([0; 4])),
        check(0, "number 1", |s| s.places[0].gazetteer = 1),
        check(0, "number 1 of the last place", |s| s.places[3].gazetteer = 1),
        check(0, "number 2^32-1", |s| s.places[0].gazetteer = u32::MAX),
        check(0, "number 2^32-1 of the last place", |s| s.places[3].gazetteer = u32::MAX),
        check(0, "the least and the largest numbers", numbers([u32::MAX, 1, u32::MAX - 1, 2])),
        check(0, "numbers descend", numbers([104, 103, 102, 101])),
        check(0, "numbers like those of places", numbers([3, 2, 1, 4])),
        check(0, "numbers apart in the highest bits alone", numbers([101, 1 << 30 | 101, 1 << 31 | 101, 3 << 30 | 101])),
        check(0, "numbers apart in one byte each", numbers([0x0101_0101, 0x0101_0102, 0x0101_0201, 0x0102_0101])),
        layout(3, "number 0 and a shared cell", numbers([0, 102, 103, 104])).and(|s| s.places[3].cell = s.places[2].cell),
    ]
}

fn repeated_number_edges() -> Vec<Edge> {
    vec![
        layout(3, "the first and the last number the same", numbers([101, 102, 103, 101])),
        layout(3, "the first two numbers the same", numbers([101, 101, 103, 104])),
        layout(3, "the middle two numbers the same", numbers([101, 102, 102, 104])),
        layout(3, "the last two numbers the same", numbers([101, 102, 103, 103])),
        layout(3, "the first and the third number the same", numbers([101, 102, 101, 104])),
        layout(3, "two numbers twice", numbers([101, 102, 102, 101])),
        layout(3, "all numbers the same", numbers([101; 4])),
        layout(3, "number 1 twice", numbers([1, 102, 103, 1])),
        layout(3, "number 2^32-1 twice", numbers([101, u32::MAX, 103, u32::MAX])),
        layout(3, "a number twice among numbers alike", numbers([101, 1 << 31 | 101, 1 << 30 | 101, 1 << 31 | 101])),
        layout(3, "a whole record twice", |s| s.places[3] = s.places[0]),
    ]
}
