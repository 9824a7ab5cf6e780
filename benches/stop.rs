//! Why a run stops before its end.

use std::fmt::Debug;
use std::io;

pub enum Stop {
    /// A peer and the library do not agree, in words.
    Differ(String),
    /// A table could not be written.
    Unwritten(io::Error),
}

impl From<io::Error> for Stop {
    fn from(error: io::Error) -> Stop {
        Stop::Unwritten(error)
    }
}

/// Stops the run unless the peer found what the library found.
pub fn same<T: PartialEq + Debug>(what: &str, peer: &str, library: T, found: T) -> Result<(), Stop> {
    if library == found {
        return Ok(());
    }
    Err(Stop::Differ(format!("{what}: the library gives {library:?}, {peer} {found:?}")))
}

/// The same of a table or a list: the first word that differs is told.
pub fn same_words<T: PartialEq + Debug>(
    what: &str,
    peer: &str,
    library: &[T],
    found: &[T],
) -> Result<(), Stop> {
    same(&format!("{what}: words"), peer, library.len(), found.len())?;
    let mut words = library.iter().zip(found).enumerate();
    match words.find(|(_, (library, found))| library != found) {
        Some((i, (library, found))) => same(&format!("{what}: word {i}"), peer, library, found),
        None => Ok(()),
    }
}
