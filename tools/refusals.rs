//! The words of each refusal number, read from the table that the desk reads.

const TABLE: &str = include_str!("../docs/REFUSALS.md");

pub struct Refusal {
    pub meaning: &'static str,
    pub remedy: &'static str,
}

pub fn refusal(number: u64) -> Option<Refusal> {
    TABLE.lines().find_map(|line| {
        let cells: Vec<&str> = line.split('|').map(str::trim).collect();
        match cells[..] {
            ["", first, meaning, remedy, ""] if first.parse() == Ok(number) => Some(Refusal { meaning, remedy }),
            _ => None,
        }
    })
}
