//! The question, outward and inward: beside the same listing in plain Rust, and beside the search along the roads from q,
//! which needs no quadtree.

use crate::library::{self, Lent};
use crate::parts::Extent;
use crate::plain::expansion::{Found, Net};
use crate::plain::sections::Sections;
use crate::plain::{layout, listing, quick_listing};
use crate::race::Race;
use crate::rules::asked::{Asked, WAYS};
use crate::rules::limits::{ANSWER_WORDS, DIRECTIONS, OFFICES};
use crate::rules::question::Outcome;
use crate::rules::refusal::{Number, ACCEPTED};
use crate::sheets::{Drawn, NAMES};
use crate::stop::{same, same_words, Stop};
use crate::table;
use std::hint::black_box;

type Question = fn(&[u8], Asked, &mut [u64]) -> Outcome;

const LISTINGS: [(&str, Question); 2] =
    [("same method", listing::question), ("best plain Rust", quick_listing::question)];

const SEARCH: &str = "road search";

const COLUMNS: [&str; 10] = [
    "sheet",
    "offices",
    "k",
    "refinements",
    "library",
    "its layout rules",
    LISTINGS[0].0,
    LISTINGS[1].0,
    SEARCH,
    "the same, net ready",
];

/// So many are asked, about places spread over the sheet.
const QUESTIONS: usize = 16;

/// What the library answers, lent enough for any sheet, and its list.
fn answered(bytes: &[u8], asked: Asked) -> (Outcome, Vec<u64>) {
    let most = *OFFICES.end() as usize;
    let mut lent = Lent::to((asked.k as usize).min(most), most);
    let number = library::question(bytes, asked, &mut lent);
    (lent.outcome(number), lent.list())
}

/// Whether all who list agree; what the library answers.
pub fn agree(what: &str, bytes: &[u8], asked: Asked) -> Result<(Outcome, Vec<u64>), Stop> {
    let (outcome, list) = answered(bytes, asked);
    let what = format!("{asked} on {what}");
    for (peer, question) in LISTINGS {
        let mut found = vec![0; list.len()];
        same(&what, peer, outcome, question(bytes, asked, &mut found))?;
        // A list that is broken off is nobody's to see: the library clears it.
        if outcome.number == ACCEPTED {
            same_words(&what, peer, &list, &found)?;
        }
    }
    Ok((outcome, list))
}

/// Searches from q over the bytes of a sheet, whose layout is looked at as the library does.
fn search(bytes: &[u8], asked: Asked) -> Result<Vec<Found>, Number> {
    layout::best(bytes).map(|sections| nearest(&Net::of(&sections, asked.direction), asked))
}

fn nearest(net: &Net, asked: Asked) -> Vec<Found> {
    net.nearest(asked.q as usize, asked.k as usize)
}

/// On a true sheet, besides: the offices listed are those that the road search finds, in its order, and the ends of each
/// enclose its length. The refinements are given.
pub fn agree_on_truth(drawn: &Drawn, asked: Asked) -> Result<u64, Stop> {
    let what = drawn.title();
    let (outcome, list) = agree(&what, &drawn.bytes, asked)?;
    let found = search(&drawn.bytes, asked).expect("a true sheet is laid out");
    let encloses = |(line, &(length, office)): (&[u64], &Found)| {
        line[0] == u64::from(office) && (line[1]..=line[2]).contains(&u64::from(length))
    };
    let right = list.chunks_exact(ANSWER_WORDS).zip(&found).filter(|&pair| encloses(pair)).count();
    let what = format!("{asked} on {what}: number, and offices listed right");
    same(&what, SEARCH, (outcome.number, right), (ACCEPTED, asked.k as usize))?;
    Ok(outcome.refinements)
}

/// Question i about a sheet of so many places.
fn asked(i: usize, places: usize, k: usize, direction: u32) -> Asked {
    Asked { q: (i * places / QUESTIONS) as u32, k: k as u32, direction }
}

fn times(drawn: &Drawn, k: usize, direction: u32, rounds: usize) -> Vec<Option<f64>> {
    let (bytes, offices) = (&drawn.bytes, drawn.sheet.offices.len());
    let asked = |i| asked(i, drawn.places(), k, direction);
    let mut race = Race::of(QUESTIONS);
    let (mut lent, mut nothing) = (Lent::to(k, offices), Lent::to(0, 0));
    race.enter(move |i| library::question(black_box(bytes), asked(i), &mut lent));
    race.enter(move |_| library::layout(black_box(bytes), &mut nothing));
    for (_, question) in LISTINGS {
        let mut answer = vec![0; ANSWER_WORDS * k];
        race.enter(move |i| question(black_box(bytes), asked(i), &mut answer));
    }
    race.enter(move |i| search(black_box(bytes), asked(i)));
    let net = Net::of(&Sections::of(bytes).expect("a sheet that was drawn is laid out"), direction);
    race.enter(move |i| nearest(&net, asked(i)));
    race.best_times(rounds)
}

fn add_row(drawn: &Drawn, k: usize, direction: u32, rounds: usize) -> Result<(), Stop> {
    let mut refinements = 0;
    for i in 0..QUESTIONS {
        refinements += agree_on_truth(drawn, asked(i, drawn.places(), k, direction))?;
    }
    let mean = refinements as f64 / QUESTIONS as f64;
    let row = [
        drawn.name.to_string(),
        table::number(drawn.sheet.offices.len()),
        k.to_string(),
        format!("{mean:.1}"),
    ];
    table::row(&row, &times(drawn, k, direction, rounds))?;
    Ok(())
}

/// A table for each direction.
pub fn tabulate(extent: &Extent) -> Result<(), Stop> {
    DIRECTIONS.into_iter().try_for_each(|direction| tabulate_one(extent, direction))
}

fn tabulate_one(extent: &Extent, direction: u32) -> Result<(), Stop> {
    let title = format!("Question {}, {} places", WAYS[direction as usize], table::number(extent.asked_size));
    table::head(&title, &COLUMNS)?;
    for name in NAMES {
        let drawn = Drawn::of(name, extent.asked_size, 0);
        for &offices in extent.offices {
            let drawn = drawn.with_offices(offices);
            for &k in extent.nearest.iter().filter(|&&k| k <= offices) {
                add_row(&drawn, k, direction, extent.rounds)?;
            }
        }
    }
    Ok(())
}
