//! Edges of the byte length, the cuts and the counts (refusals 1 and 2), and their order.

use crate::inputs::edges::edge::{Due, Edge};
use crate::inputs::marked::{self, place};
use crate::rules::limits::{PLACE_WORDS, WORD_BYTES};
use crate::rules::refusal::Number;
use crate::rules::sheet::{bytes_of, words_of, Place, Sheet};

pub fn all() -> Vec<Edge> {
    let mut edges = cuts();
    edges.extend(lengths());
    edges.extend(counts());
    edges.extend(counts_without_records());
    edges.extend(old_sheets());
    edges.extend(orders());
    edges
}

fn marked_words() -> Vec<u32> {
    words_of(&marked::sheet().to_bytes())
}

fn of_words(due: Number, name: &'static str, words: &[u32]) -> Edge {
    Edge { name, sheet: bytes_of(words), due: Due::Layout(due) }
}

/// A sheet of one place, then these words.
fn lone(due: Number, name: &'static str, rest: &[u32]) -> Edge {
    of_words(due, name, &after_place(place([5, 5, 7_005]), rest))
}

/// The same, its place outside the grid.
fn off_grid(due: Number, name: &'static str, rest: &[u32]) -> Edge {
    of_words(due, name, &after_place(place([1_024, 5, 7_005]), rest))
}

fn after_place(place: Place, rest: &[u32]) -> Vec<u32> {
    let sheet = Sheet { places: vec![place], ..Sheet::default() };
    let mut words = words_of(&sheet.to_bytes());
    words.truncate(1 + PLACE_WORDS);
    words.extend(rest);
    words
}

/// The marked sheet cut after every word: in each section, before each count, between records.
fn cuts() -> Vec<Edge> {
    let words = marked_words();
    (0..words.len()).map(|end| of_words(1, "cut", &words[..end])).collect()
}

fn lengths() -> Vec<Edge> {
    let whole = marked::sheet().to_bytes();
    let mut edges = Vec::new();
    for fewer in 1..WORD_BYTES {
        let sheet = whole[..whole.len() - fewer].to_vec();
        edges.push(Edge { name: "bytes missing", sheet, due: Due::Layout(1) });
    }
    for more in 1..=2 * WORD_BYTES {
        let mut sheet = whole.clone();
        sheet.resize(whole.len() + more, 0);
        edges.push(Edge { name: "bytes left over", sheet, due: Due::Layout(1) });
    }
    edges
}

/// Each count of the marked sheet changed at its place, the records left as they are.
fn counts() -> Vec<Edge> {
    let positions = marked::sheet().count_positions();
    let most = [1_024, 8_192, 262_144, 4_096];
    let mut edges = Vec::new();
    for (at, most) in positions.into_iter().zip(most) {
        for (due, count) in [(1, most), (2, most + 1), (2, u32::MAX), (2, 1 << 31)] {
            let mut words = marked_words();
            words[at] = count;
            edges.push(of_words(due, "count at its edge", &words));
        }
    }
    for (at, due, step) in [(2, 1, 1), (3, 1, 1), (3, 1, u32::MAX)] {
        let mut words = marked_words();
        words[positions[at]] = words[positions[at]].wrapping_add(step);
        edges.push(of_words(due, "count one off", &words));
    }
    edges
}

fn counts_without_records() -> Vec<Edge> {
    vec![
        of_words(1, "empty sheet", &[]),
        of_words(2, "no places", &[0]),
        of_words(2, "no places, all counts there", &[0, 0, 0, 0]),
        of_words(1, "one place, no record", &[1]),
        of_words(1, "one place, one word of its record", &[1, 5]),
        of_words(1, "one place, two words of its record", &[1, 5, 5]),
        lone(1, "one place, no stage count", &[]),
        lone(1, "one place, no block count", &[0]),
        lone(1, "one place, no office count", &[0, 0]),
        lone(0, "one place", &[0, 0, 0]),
        lone(0, "one place, two offices", &[0, 0, 2, 0, 0]),
        lone(6, "one place, office 1", &[0, 0, 2, 0, 1]),
        lone(1, "one place, word left over", &[0, 0, 0, 0]),
        of_words(1, "1,024 places, no record", &[1_024]),
        of_words(2, "1,025 places, no record", &[1_025]),
        lone(1, "8,192 stages, no record", &[8_192]),
        lone(2, "8,193 stages, no record", &[8_193]),
        lone(1, "262,144 blocks, no record", &[0, 262_144]),
        lone(2, "262,145 blocks, no record", &[0, 262_145]),
        lone(1, "4,096 offices, no record", &[0, 0, 4_096]),
        lone(2, "4,097 offices, no record", &[0, 0, 4_097]),
    ]
}

/// Sheets whose places have the two words of the time before item 2: nothing tells them from others, and each is read
/// as it stands.
fn old_sheets() -> Vec<Edge> {
    let mut marked = vec![4, 0, 0, 3, 4, 6, 8, 0, 5];
    marked.extend(&marked_words()[1 + 4 * PLACE_WORDS..]);
    vec![
        // After 12 words of places come no stages, three blocks and 115 offices, a low ratio, which are not there.
        of_words(1, "the marked sheet of old", &marked),
        // After nine words of places comes a length as the count of stages.
        of_words(2, "an old sheet of long stages", &[3, 0, 0, 1, 0, 2, 0, 3, 0, 1, 9_000, 1, 2, 1, 2, 0, 1, 0, 0]),
        // One stage, one block and ten offices, and nothing left over; the last place has number 0.
        of_words(3, "an old sheet that makes whole sections", &OLD_AND_WHOLE),
        // The first stage makes up the third place, its length the count of the others.
        Edge { name: "an old sheet that is true of other places", sheet: bytes_of(&OLD_AND_TRUE), due: Due::Check(0) },
    ]
}

/// Two places, two stages, two blocks and three offices: a true sheet before item 2.
const OLD_AND_WHOLE: [u32; 29] =
    [2, 0, 0, 5, 5, 2, 0, 1, 1, 1, 0, 1, 2, 0, 0, 10, 0, 0, 10, 1, 0, 10, 0, 0, 10, 3, 0, 0, 1];

/// Three places and two offices, with five stages before item 2 and four since; true before it, and true now.
const OLD_AND_TRUE: [u32; 51] = [
    3, 0, 600, 10, 700, 3, 20, 5, 0, 1, 4, 0, 2, 100, 1, 0, 7, 1, 2, 1, 2, 1, 9, 4, 0, 0, 10, 0, 0, RATIO_MOST, 1, 0, 9, 1, 0,
    RATIO_MOST, 1, 524_288, 9, 0, 0, RATIO_MOST, 2, 0, 10, 0, 0, RATIO_MOST, 2, 1, 2,
];

const RATIO_MOST: u32 = u32::MAX;

fn orders() -> Vec<Edge> {
    let mut odd = bytes_of(&[0, 0, 0, 0]);
    odd.push(0);
    let mut odd_place = off_grid(0, "", &[0, 0, 0]).sheet;
    odd_place.pop();
    vec![
        Edge { name: "odd length, no places", sheet: odd, due: Due::Layout(1) },
        Edge { name: "odd length, bad place", sheet: odd_place, due: Due::Layout(1) },
        of_words(1, "places cut short, then a bad count", &[3, 5, 5, 9_000, 0, 0]),
        off_grid(2, "bad place, then a bad stage count", &[8_193]),
        off_grid(2, "bad place, then a bad office count", &[0, 0, 4_097]),
        off_grid(1, "bad place, then a cut", &[0, 0]),
        off_grid(1, "bad place, word left over", &[0, 0, 0, 0]),
        lone(2, "bad count, words left over", &[0, 262_145, 0, 0]),
        lone(1, "stages cut short, then a bad count", &[2, 0, 0, 1, 262_145, 9_999]),
        off_grid(3, "bad place, bad office", &[0, 0, 1, 1]),
        lone(4, "a stage of one place", &[1, 0, 0, 1, 0, 0]),
        lone(5, "a block of one place", &[0, 1, 0, 0, 10, 0, 0, 0, 0]),
    ]
}
