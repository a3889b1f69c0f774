//! What the repository's pages and its C header say of the refusals.

use crate::programs::repository;
use std::collections::BTreeMap;
use std::fs;

/// The text of a file of the repository.
pub fn document(path: &str) -> String {
    fs::read_to_string(repository().join(path)).unwrap_or_else(|error| panic!("{path}: {error}"))
}

/// A row of the table of refusals in docs/BENCH.md.
#[derive(Debug)]
pub struct Meaning {
    pub number: u8,
    /// The column "what it means".
    pub means: String,
    /// The column "what to do".
    pub advice: String,
}

/// The table of refusals in docs/BENCH.md.
pub fn meanings() -> Vec<Meaning> {
    let page = document("docs/BENCH.md");
    let rows = page.lines().filter_map(|line| {
        let row = line.strip_prefix("| ")?.strip_suffix(" |")?;
        let cells: Vec<&str> = row.split(" | ").collect();
        let plain = |text: &str| text.replace('`', "");
        Some(Meaning {
            number: cells[0].parse().ok()?,
            means: plain(cells[2]),
            advice: plain(cells[3]),
        })
    });
    rows.collect()
}

/// The names of refusals that include/balise.h defines, without what they all
/// begin with, and their numbers.
pub fn header_refusals() -> BTreeMap<String, u8> {
    let header = document("include/balise.h");
    let lines = header
        .lines()
        .filter_map(|line| line.strip_prefix("#define BALISE_REFUSED_"));
    let mut numbers = BTreeMap::new();
    for line in lines {
        let mut parts = line.split_whitespace();
        let name = parts.next().expect("a name").to_string();
        let number = parts.next().and_then(|number| number.parse().ok());
        let before = numbers.insert(name, number.expect("a number"));
        assert_eq!(before, None, "defined twice: {line}");
    }
    numbers
}

/// The refusals that include/balise.h lists for a call, in the order listed.
pub fn header_list(call: &str) -> Vec<u8> {
    let header = document("include/balise.h");
    let declaration = format!("uint64_t balise_{call}(");
    let (before, _) = header.split_once(&declaration).expect(call);
    let (_, list) = before.rsplit_once("Refusals: ").expect(call);
    let (list, _) = list.split_once('.').expect(call);
    let number = |text: &str| text.parse::<u8>().expect("a number");
    list.split(", ")
        .flat_map(|part| {
            let (first, last) = part.split_once(" to ").unwrap_or((part, part));
            number(first)..=number(last)
        })
        .collect()
}
