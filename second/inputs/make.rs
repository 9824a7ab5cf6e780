//! Input files for the comparison with the proved program, and what each should print.

use crate::inputs::damage;
use crate::inputs::draw::{ask, true_sheet};
use crate::inputs::edges;
use crate::inputs::edges::edge::Edge;
use crate::inputs::limit_cases;
use crate::inputs::marked;
use crate::inputs::rng::Rng;
use crate::rules::program::{answer, input_of};
use crate::tally::Tally;
use std::fs;
use std::io;
use std::path::{Path, PathBuf};

pub fn make(seed: u64, count: u64, folder: &Path) -> io::Result<()> {
    fs::create_dir_all(folder)?;
    let edges = edges::all();
    for index in 0..count {
        fs::write(folder.join(format!("{index:06}.in")), input(seed, index, &edges))?;
    }
    Ok(())
}

/// Even inputs are true sheets; odd ones are damaged, at an edge, or at the program's limits.
pub fn input(seed: u64, index: u64, edges: &[Edge]) -> Vec<u8> {
    let mut rng = Rng::new(seed, index);
    let turn = (index / 8) as usize;
    match index % 8 {
        1 | 5 => {
            let sheet = true_sheet(&mut rng);
            let damaged = damage::damaged(&mut rng, &sheet);
            let asked = ask(&mut rng, &damaged);
            input_of(asked, &damaged.to_bytes())
        }
        3 => {
            let asked = ask(&mut rng, &marked::sheet());
            input_of(asked, &edges[turn % edges.len()].sheet)
        }
        7 if turn.is_multiple_of(4) => limit_cases::input(&mut rng, turn / 4 % limit_cases::KINDS),
        7 => {
            let sheet = true_sheet(&mut rng);
            let asked = ask(&mut rng, &sheet);
            input_of(asked, &damage::bytes::damaged(&mut rng, &sheet))
        }
        _ => {
            let sheet = true_sheet(&mut rng);
            let asked = ask(&mut rng, &sheet);
            input_of(asked, &sheet.to_bytes())
        }
    }
}

/// Writes what each input should print beside it, and gives the table of what was met.
pub fn expect(folder: &Path) -> io::Result<Tally> {
    let mut inputs: Vec<PathBuf> = Vec::new();
    for entry in fs::read_dir(folder)? {
        let path = entry?.path();
        if path.extension().is_some_and(|e| e == "in") {
            inputs.push(path);
        }
    }
    inputs.sort();
    let mut tally = Tally::default();
    for path in inputs {
        let input = fs::read(&path)?;
        let text = answer(&input);
        tally.met_text(&input, &text);
        fs::write(path.with_extension("want"), text)?;
    }
    Ok(tally)
}
