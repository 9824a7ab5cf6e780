//! The layout rules alone: beside the same in plain Rust, and beside one pass that adds up all words.

use crate::library::{self, Lent};
use crate::parts::{Extent, SOME_OFFICES};
use crate::plain::layout;
use crate::plain::sections::Sections;
use crate::race::Race;
use crate::rules::refusal::{Number, ACCEPTED};
use crate::rules::sheet::words_of;
use crate::sheets::{Drawn, NAMES};
use crate::stop::{same, Stop};
use crate::table;
use std::hint::black_box;

type Layout = for<'a> fn(&'a [u8]) -> Result<Sections<'a>, Number>;

const PEERS: [(&str, Layout); 2] = [("same method", layout::same_method), ("best plain Rust", layout::best)];

const SUM: &str = "sum of the words";

const COLUMNS: [&str; 7] = ["sheet", "places", "bytes", "library", PEERS[0].0, PEERS[1].0, SUM];

/// A turn goes over about so many bytes, since the clock is too coarse for less.
const TURN_BYTES: usize = 8_000_000;

/// Whether all agree on the number, which is given.
pub fn agree(what: &str, bytes: &[u8]) -> Result<Number, Stop> {
    let number = library::layout(bytes, &mut Lent::to(0, 0));
    for (peer, layout) in PEERS {
        let found = layout(bytes).err().unwrap_or(ACCEPTED);
        same(&format!("layout of {what}"), peer, number, found)?;
    }
    let sum = words_of(bytes).into_iter().fold(0, u32::wrapping_add);
    same(&format!("sum of the words of {what}"), SUM, sum, layout::sum_of_words(bytes))?;
    Ok(number)
}

fn times(bytes: &[u8], rounds: usize) -> Vec<Option<f64>> {
    let mut race = Race::of((TURN_BYTES / bytes.len()).max(1));
    let mut lent = Lent::to(0, 0);
    race.enter(move |_| library::layout(black_box(bytes), &mut lent));
    for (_, layout) in PEERS {
        race.enter(move |_| layout(black_box(bytes)).is_ok());
    }
    race.enter(move |_| layout::sum_of_words(black_box(bytes)));
    race.best_times(rounds)
}

pub fn tabulate(extent: &Extent) -> Result<(), Stop> {
    table::head("Layout", &COLUMNS)?;
    for &places in extent.sizes {
        for name in NAMES {
            let drawn = Drawn::of(name, places, SOME_OFFICES);
            let number = agree(&drawn.title(), &drawn.bytes)?;
            same(&format!("layout of {}", drawn.title()), "who drew it", number, ACCEPTED)?;
            let asked = [name.to_string(), table::number(places), table::number(drawn.bytes.len())];
            table::row(&asked, &times(&drawn.bytes, extent.rounds))?;
        }
    }
    Ok(())
}
