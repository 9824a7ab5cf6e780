//! Whether both sides agree on small sheets, true and damaged: a peer that left a rule out would be fast for nothing.

use crate::inputs::damage;
use crate::inputs::draw::{ask, NO_DIRECTIONS};
use crate::inputs::rng::Rng;
use crate::parts::{check, layout, question};
use crate::rules::asked::{Asked, WAYS};
use crate::rules::refusal::Number;
use crate::sheets::{Drawn, NAMES};
use crate::stop::Stop;
use std::collections::BTreeSet;
use std::io::{self, Write};

const SIZES: [usize; 2] = [10, 40];
const OFFICES: usize = 20;
const NEAREST: [u32; 3] = [1, 5, 20];
const DAMAGED: usize = 100;
const SEED: u64 = 5;

#[derive(Default)]
struct Met {
    sheets: usize,
    checks: BTreeSet<Number>,
    questions: [BTreeSet<Number>; WAYS.len()],
}

pub fn on_small_sheets() -> Result<(), Stop> {
    let mut met = Met::default();
    for places in SIZES {
        for name in NAMES {
            let drawn = Drawn::of(name, places, OFFICES);
            met.one(&mut Rng::new(SEED, 0), &drawn.title(), &drawn.bytes, &drawn)?;
            for asked in all_questions(places) {
                question::agree_on_truth(&drawn, asked)?;
            }
            met.damaged(&drawn)?;
        }
    }
    writeln!(io::stdout(), "both sides agree on {} small sheets, true and damaged", met.sheets)?;
    let [outward, inward, neither] = met.questions;
    write!(io::stdout(), "numbers met: check {:?}, question outward {outward:?}, ", met.checks)?;
    writeln!(io::stdout(), "inward {inward:?}, in neither direction {neither:?}")?;
    Ok(())
}

/// About every place, in both directions.
fn all_questions(places: usize) -> impl Iterator<Item = Asked> {
    let about = |q| NEAREST.into_iter().flat_map(move |k| Asked::outward(q, k).both_ways());
    (0..places as u32).flat_map(about)
}

impl Met {
    /// One sheet, made from the drawn one, in every part.
    fn one(&mut self, rng: &mut Rng, what: &str, bytes: &[u8], drawn: &Drawn) -> Result<(), Stop> {
        layout::agree(what, bytes)?;
        self.checks.insert(check::agree(what, bytes, drawn.places())?.0);
        let asked = ask(rng, &drawn.sheet);
        let neither = Asked { direction: rng.pick(&NO_DIRECTIONS), ..asked };
        for asked in asked.both_ways().into_iter().chain([neither]) {
            self.questions[asked.way()].insert(question::agree(what, bytes, asked)?.0.number);
        }
        self.sheets += 1;
        Ok(())
    }

    fn damaged(&mut self, drawn: &Drawn) -> Result<(), Stop> {
        for i in 0..DAMAGED {
            let mut rng = Rng::new(SEED, i as u64 + 1);
            // one of four in its bytes, the others in one of the paper's rules
            let bytes = if i % 4 == 0 {
                damage::bytes::damaged(&mut rng, &drawn.sheet)
            } else {
                damage::damaged(&mut rng, &drawn.sheet).to_bytes()
            };
            self.one(&mut rng, &format!("{}, damaged ({i})", drawn.title()), &bytes, drawn)?;
        }
        Ok(())
    }
}
