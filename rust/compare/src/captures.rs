//! Captures of every kind to compare searches on (`second::capture_kinds`), and what is
//! told of them.

use second::capture_kinds::{damage, CaptureKind, Cost, Stock, CAPTURE_KINDS};
use second::format::{Format, FORMATS};
use second::random::Random;

/// A capture to be made.
pub struct Case {
    pub kind: &'static CaptureKind,
    pub format: Format,
    pub length: usize,
    pub damaged: bool,
}

impl Case {
    /// The capture: one number always gives the same one.
    pub fn capture(&self, stock: &Stock, number: u64) -> Vec<u8> {
        let mut random = Random::new(number);
        let mut capture = self
            .kind
            .capture(stock, &mut random, self.format, self.length);
        if self.damaged {
            damage(&mut random, &mut capture);
        }
        capture
    }
}

/// A length at which a search that reads at every place takes no more than some
/// milliseconds.
fn length(random: &mut Random, cost: Cost, format: Format) -> usize {
    let window = format.window_bits();
    match (cost, random.below(8)) {
        (Cost::Little, 0) => window + random.below(700),
        (Cost::Little, 1) => 2500 + random.below(2500),
        (Cost::Little, _) => 1200 + random.below(1300),
        (Cost::Divisions, 0) => 1100 + random.below(900),
        (Cost::Divisions, _) => window + random.below(300),
        (Cost::AllTests, _) => window + random.below(40),
    }
}

/// Captures of every kind and format, damaged and not: of each as many as `count` says.
pub fn of_every_kind(random: &mut Random, count: impl Fn(Cost) -> usize) -> Vec<Case> {
    let mut cases = Vec::new();
    for kind in &CAPTURE_KINDS {
        for format in FORMATS {
            for damaged in [false, true] {
                cases.extend((0..count(kind.cost)).map(|_| Case {
                    kind,
                    format,
                    length: length(random, kind.cost, format),
                    damaged,
                }));
            }
        }
    }
    cases
}

/// How many captures of each kind there are of which something holds.
pub fn by_kind<'a>(cases: impl Iterator<Item = &'a Case>) -> Vec<(&'static str, usize)> {
    let mut counts = CAPTURE_KINDS.each_ref().map(|kind| (kind.name, 0));
    for case in cases {
        let count = counts.iter_mut().find(|(name, _)| *name == case.kind.name);
        count.expect("a kind").1 += 1;
    }
    counts.into_iter().filter(|&(_, count)| count > 0).collect()
}

/// Prints how many captures there were of each kind, and in how many of them a long
/// window was found, a short one, and none.
pub fn print(what: &str, cases: &[Case], found: &[Option<Format>]) {
    println!(
        "{} {what}; by kind, and found long, found short, none:",
        cases.len()
    );
    for (name, count) in by_kind(cases.iter()) {
        let of_kind = cases.iter().zip(found);
        let of_kind: Vec<_> = of_kind.filter(|(case, _)| case.kind.name == name).collect();
        let outcomes = [Some(Format::Long), Some(Format::Short), None].map(|outcome| {
            of_kind
                .iter()
                .filter(|(_, found)| **found == outcome)
                .count()
        });
        println!("{count:>6} {outcomes:?} {name}");
    }
}
