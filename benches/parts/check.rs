//! The check: beside the whole check in plain Rust, and beside the road lengths between all pairs alone.

use crate::inputs::marked;
use crate::library;
use crate::parts::{Extent, SOME_OFFICES};
use crate::peers::{self, Peer};
use crate::plain::roads::Roads;
use crate::plain::sections::Sections;
use crate::plain::{by_columns, by_rows};
use crate::race::Race;
use crate::rules::limits::WORD_BYTES;
use crate::rules::refusal::{Number, ACCEPTED};
use crate::rules::sheet::words_of;
use crate::sheets::{Drawn, NAMES};
use crate::stop::{same, same_words, Stop};
use crate::table;
use std::io::{self, Write};

/// Checks a sheet and fills the table.
type Check = fn(&[u8], &mut [u32]) -> Number;

const WHOLE: [(&str, Check); 2] = [("same method", by_columns::check), ("best plain Rust", by_rows::check)];

/// Fills the table alone.
type Lengths = Box<dyn Fn(&mut [u32])>;

const PLAIN_LENGTHS: &str = "lengths alone: BinaryHeap";

const COLUMNS: [&str; 11] = [
    "sheet",
    "places",
    "stages",
    "blocks",
    "library",
    WHOLE[0].0,
    WHOLE[1].0,
    PLAIN_LENGTHS,
    peers::NAMES[0],
    peers::NAMES[1],
    peers::NAMES[2],
];

/// What the library makes of a sheet, lent a table for so many places: its number and the table.
fn checked(bytes: &[u8], places: usize) -> (Number, Vec<u32>) {
    let mut distances = vec![u8::MAX; WORD_BYTES * places * places];
    let number = library::check(bytes, &mut distances);
    (number, words_of(&distances))
}

/// Whether all who do the whole check agree, also in what they leave unwritten; what the library makes of it.
pub fn agree(what: &str, bytes: &[u8], places: usize) -> Result<(Number, Vec<u32>), Stop> {
    let (number, table) = checked(bytes, places);
    let what = format!("check of {what}");
    for (peer, check) in WHOLE {
        let mut found = vec![u32::MAX; places * places];
        same(&what, peer, number, check(bytes, &mut found))?;
        same_words(&what, peer, &table, &found)?;
    }
    Ok((number, table))
}

/// Those who fill the table alone, over stages that they have read: in plain Rust, and by others where they are there.
fn lengths_alone(drawn: &Drawn) -> Vec<(&'static str, Option<Lengths>)> {
    let sections = Sections::of(&drawn.bytes).expect("a sheet that was drawn is laid out");
    let roads = Roads::of(&sections);
    let plain: Lengths = Box::new(move |table| roads.all_pairs(table));
    let mut all = vec![(PLAIN_LENGTHS, Some(plain))];
    for (number, name) in peers::NAMES.into_iter().enumerate() {
        let lengths = |peer: Peer| -> Lengths { Box::new(move |table| peer.all_pairs(table)) };
        all.push((name, Peer::ready(number, &drawn.sheet).map(lengths)));
    }
    all
}

/// Whether all agree on a true sheet.
fn agree_on_truth(drawn: &Drawn, alone: &[(&str, Option<Lengths>)]) -> Result<(), Stop> {
    let (what, places) = (drawn.title(), drawn.places());
    let (number, table) = agree(&what, &drawn.bytes, places)?;
    same(&format!("check of {what}"), "who drew it", number, ACCEPTED)?;
    for (peer, lengths) in alone {
        let mut found = vec![u32::MAX; places * places];
        match lengths {
            Some(lengths) => lengths(&mut found),
            None => continue,
        }
        same_words(&format!("road lengths of {what}"), peer, &table, &found)?;
    }
    Ok(())
}

fn times(drawn: &Drawn, alone: Vec<(&str, Option<Lengths>)>, rounds: usize) -> Vec<Option<f64>> {
    let (bytes, area) = (&drawn.bytes, drawn.places() * drawn.places());
    let mut race = Race::of(1);
    let mut distances = vec![0; WORD_BYTES * area];
    race.enter(move |_| library::check(bytes, &mut distances));
    for (_, check) in WHOLE {
        let mut table = vec![0; area];
        race.enter(move |_| check(bytes, &mut table));
    }
    for (_, lengths) in alone {
        let mut table = vec![0; area];
        match lengths {
            Some(lengths) => race.enter(move |_| lengths(&mut table)),
            None => race.miss(),
        }
    }
    race.best_times(rounds)
}

/// Says who is not there, beneath the table.
fn tell_missing() -> io::Result<()> {
    let missing = |number: &usize| Peer::ready(*number, &marked::sheet()).is_none();
    let names: Vec<&str> =
        (0..peers::NAMES.len()).filter(missing).map(|number| peers::NAMES[number]).collect();
    if names.is_empty() {
        return Ok(());
    }
    let names = names.join(", ");
    writeln!(
        io::stdout(),
        "\nNot installed when the bench was built, and so not measured: {names}. {}",
        peers::WHERE_FROM
    )
}

pub fn tabulate(extent: &Extent) -> Result<(), Stop> {
    table::head("Check", &COLUMNS)?;
    for &places in extent.sizes {
        for name in NAMES {
            let drawn = Drawn::of(name, places, SOME_OFFICES);
            let alone = lengths_alone(&drawn);
            agree_on_truth(&drawn, &alone)?;
            let [stages, blocks] = [drawn.sheet.stages.len(), drawn.sheet.blocks.len()].map(table::number);
            let asked = [name.to_string(), table::number(places), stages, blocks];
            table::row(&asked, &times(&drawn, alone, extent.rounds))?;
        }
    }
    tell_missing()?;
    Ok(())
}
