//! Tables in the form of docs/SPEED.md, written line by line as their rows are measured.

use std::io::{self, Write};

fn line(cells: &[String]) -> io::Result<()> {
    writeln!(io::stdout(), "| {} |", cells.join(" | "))
}

pub fn head(title: &str, columns: &[&str]) -> io::Result<()> {
    writeln!(io::stdout(), "\n## {title}\n")?;
    line(&columns.iter().map(|column| column.to_string()).collect::<Vec<String>>())?;
    writeln!(io::stdout(), "|{}", "---|".repeat(columns.len()))
}

/// A row: what was asked, the library's time, and each other's as a part of it; nothing for one that is not there.
pub fn row(asked: &[String], times: &[Option<f64>]) -> io::Result<()> {
    let library = times[0].expect("the library takes part in every race");
    let cell = |time: &Option<f64>| time.map_or("–".to_string(), |time| ratio(time / library));
    let mut cells = asked.to_vec();
    cells.push(time(library));
    cells.extend(times[1..].iter().map(cell));
    line(&cells)
}

fn ratio(part: f64) -> String {
    if part < 0.1 {
        format!("{part:.3}")
    } else {
        format!("{part:.2}")
    }
}

fn time(seconds: f64) -> String {
    if seconds < 1e-3 {
        format!("{:.1} µs", seconds * 1e6)
    } else {
        format!("{:.2} ms", seconds * 1e3)
    }
}

/// A number with a comma between thousands.
pub fn number(n: usize) -> String {
    if n < 1_000 {
        return n.to_string();
    }
    format!("{},{:03}", number(n / 1_000), n % 1_000)
}
