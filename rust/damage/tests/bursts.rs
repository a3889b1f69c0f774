//! Bursts (document 02, No. 8): refused with 5 or 6, as is foretold, by the
//! library and by the second program, every byte of the output kept.

mod shared;

use compare::asked;
use damage::bursts::{random_bursts, Burst, REFUSALS, SPAN};
use damage::telegrams::Window;
use damage::trial::{Outputs, Trial};
use second::bits::bits_of;
use second::cyclic::g;
use second::format::FORMATS;
use second::Refusal;
use shared::{print, refused_as_foretold, windows_of_one, BOTH_PROGRAMS};
use std::collections::BTreeMap;

/// A trial of bursts by both programs.
fn trial(seed: u64) -> Trial<'static> {
    Trial::new(&BOTH_PROGRAMS, &REFUSALS, Outputs::Room, seed)
}

/// Where the random bursts of a format were, and how long.
#[derive(Default)]
struct Places {
    /// By the seam that they lay across: before the place r or n.
    across: BTreeMap<usize, usize>,
    /// By the edge at which they began.
    begun: BTreeMap<usize, usize>,
    /// By the edge at which they ended.
    ended: BTreeMap<usize, usize>,
    spans: BTreeMap<usize, usize>,
    not_proper: usize,
    flipped: usize,
}

impl Places {
    fn add(&mut self, window: &Window, burst: &Burst) {
        let format = window.format();
        let (n, r) = (format.telegram_bits(), format.extra_bits());
        let (first, last) = (burst.first(), burst.last());
        for seam in [r, n] {
            if first < seam && seam <= last {
                *self.across.entry(seam).or_default() += 1;
            }
        }
        let seams = [r - 1, r, n - 1, n];
        if first == 0 || seams.contains(&first) {
            *self.begun.entry(first).or_default() += 1;
        }
        if last == n + r - 1 || seams.contains(&last) {
            *self.ended.entry(last).or_default() += 1;
        }
        *self.spans.entry(burst.span()).or_default() += 1;
        self.not_proper += usize::from(!window.telegram.proper);
        self.flipped += usize::from(window.flipped);
    }

    /// Prints them, and asserts that there were many of each.
    fn print(&self, count: usize) {
        let (not_proper, flipped) = (self.not_proper, self.flipped);
        println!("    of telegrams that are not proper: {not_proper}; flipped: {flipped}");
        println!("    across the seams: {:?}", self.across);
        println!("    begun at an edge: {:?}", self.begun);
        println!("    ended at an edge: {:?}", self.ended);
        let (one, most) = (self.spans[&1], self.spans[&SPAN]);
        let least = self.spans.values().min().expect("a span");
        println!("    of span 1: {one}; of {SPAN}: {most}; of each other at least {least}");
        assert!(self.not_proper > count / 4 && self.flipped > count / 4);
        assert_eq!(self.across.len(), 2);
        assert!(self.across.values().all(|&lay| lay > count / 8));
        for edges in [&self.begun, &self.ended] {
            assert_eq!(edges.len(), 5);
            assert!(edges.values().all(|&lay| lay > count / 40));
        }
        assert!(self.spans.keys().copied().eq(1..=SPAN));
        assert!(self.spans.values().all(|&spans| spans > count / 200));
        assert!(one > count / 10 && most > count / 10);
    }
}

/// Random bursts of each format, at least.
const BURSTS: usize = 200_000;

/// So many of each format, or more if BALISE_BURSTS says so.
#[test]
fn random() {
    let count = asked("BALISE_BURSTS", BURSTS).max(BURSTS);
    for format in FORMATS {
        let mut trial = trial(80);
        let mut places = Places::default();
        random_bursts(format, count, 81, |window, burst| {
            refused_as_foretold(&mut trial, window, burst);
            places.add(window, burst);
        });
        let name = format.name();
        print(&trial, &format!("random bursts of {name} windows"));
        places.print(count);
        assert_eq!(trial.given, count);
    }
}

/// The windows without damage are read, or refused with what `check` says of a
/// telegram that is not proper.
#[test]
fn without_damage() {
    for format in FORMATS {
        random_bursts(format, 2_000, 81, |window, _| {
            let refusal = second::check(&window.telegram.bits).err();
            let number = refusal.map_or(0, Refusal::number);
            let answers = BOTH_PROGRAMS.map(|call| call.answer(&window.bits, &[2; 830]).number);
            assert_eq!(answers, [number, 0, number, 0], "{window}");
            assert_eq!(number == 0, window.telegram.proper);
        });
    }
}

/// Bursts of 75 places at every place: all bits changed, and only the first and
/// the last.
#[test]
fn of_75_at_every_place() {
    let all = vec![1; SPAN];
    let mut two = vec![0; SPAN];
    (two[0], two[SPAN - 1]) = (1, 1);
    for format in FORMATS {
        let mut trial = trial(82);
        windows_of_one(format, |window| {
            for from in 0..=window.bits.len() - SPAN {
                for changes in [&all, &two] {
                    let burst = Burst::new(from, changes.clone());
                    refused_as_foretold(&mut trial, &window, &burst);
                }
            }
        });
        let name = format.name();
        print(&trial, &format!("bursts of {SPAN} in {name} windows"));
    }
}

/// A burst of 76 places whose changes are the coefficients of g, anywhere between
/// the first r bits and the last r, is refused with neither 5 nor 6: 75 is the
/// limit.
#[test]
fn of_76_by_g() {
    for format in FORMATS {
        let (n, r) = (format.telegram_bits(), format.extra_bits());
        let changes = bits_of(g(format), SPAN + 1);
        let mut trial = trial(83);
        let mut numbers: BTreeMap<u8, usize> = BTreeMap::new();
        windows_of_one(format, |window| {
            for from in r..=n - (SPAN + 1) {
                let burst = Burst::new(from, changes.clone());
                let answers = trial.give(&window, &burst);
                let number = answers[0].number;
                assert!(![5, 6].contains(&number), "{window}, {burst}");
                assert!(answers.iter().all(|answer| answer.number == number));
                *numbers.entry(number).or_default() += 1;
            }
        });
        let (name, given) = (format.name(), trial.given);
        println!("{given} bursts of 76 by g in {name} windows, by number: {numbers:?}");
        assert!(given > 0 && trial.all_refused());
    }
}
