//! Scattered changes: refused with 5, 6 or 7, as is foretold, by the library and by
//! the second program, or with 3 where the output is too short, every byte of the
//! output kept.

mod shared;

use compare::asked;
use damage::scattered::{least, limit, random_scattered, refusals, Scattered, KINDS};
use damage::telegrams::{appendix_b, random_proper, Kind, Window};
use damage::trial::{random_damage, Damage, Outputs, Trial};
use second::bits::distance;
use second::format::{Format, FORMATS};
use second::random::Random;
use shared::{print, refused_as_foretold, windows_of_one, BOTH_PROGRAMS};
use std::collections::BTreeMap;

/// A trial of changes of a kind of windows by both programs.
fn trial(kind: Kind, outputs: Outputs, seed: u64) -> Trial<'static> {
    Trial::new(&BOTH_PROGRAMS, refusals(kind), outputs, seed)
}

/// Asserts that 5 is foretold just where the last r bits of the damaged window do not
/// repeat the first r.
fn foretold_by_the_ends(window: &Window, scattered: &Scattered) {
    let format = window.format();
    let (n, r) = (format.telegram_bits(), format.extra_bits());
    let damaged = scattered.damaged(window);
    let agree = damaged[n..] == damaged[..r];
    let foretold = scattered.refusal(window);
    assert_eq!(foretold == Some(5), !agree, "{window}, {scattered}");
}

/// How many random changes of a kind of windows there were, and where.
#[derive(Default)]
struct Counts {
    sizes: BTreeMap<usize, usize>,
    /// Those at the last place before an edge of the window or a seam, or the first
    /// after it, by the place.
    edges: BTreeMap<usize, usize>,
    /// With places i and n + i changed together, by whether the ends agree.
    paired: BTreeMap<bool, usize>,
    /// Of which one alone of some places i and n + i is changed.
    one_alone: usize,
    /// At the limit and with ends that agree.
    most_and_6: usize,
    not_proper: usize,
    flipped: usize,
}

impl Counts {
    fn add(&mut self, window: &Window, scattered: &Scattered) {
        let format = window.format();
        let (n, r) = (format.telegram_bits(), format.extra_bits());
        let places = scattered.places();
        let (pairs, agree) = (scattered.pairs(format), scattered.ends_agree(format));
        let at_the_ends = places.iter().filter(|&&p| p < r || p >= n).count();
        *self.sizes.entry(places.len()).or_default() += 1;
        for edge in [0, r - 1, r, n - 1, n, n + r - 1] {
            if places.contains(&edge) {
                *self.edges.entry(edge).or_default() += 1;
            }
        }
        if pairs > 0 {
            *self.paired.entry(agree).or_default() += 1;
        }
        self.one_alone += usize::from(at_the_ends == 2 * pairs + 1);
        self.most_and_6 += usize::from(agree && places.len() == limit(format));
        self.not_proper += usize::from(!window.telegram.proper);
        self.flipped += usize::from(window.flipped);
    }

    /// Prints them, and asserts that there were many of each.
    fn print(&self, kind: Kind, count: usize) {
        let (not_proper, flipped) = (self.not_proper, self.flipped);
        println!("    of telegrams that are not proper: {not_proper}; flipped: {flipped}");
        println!("    by size: {:?}", self.sizes);
        println!("    at an edge: {:?}", self.edges);
        let (agree, differ) = (self.paired[&true], self.paired[&false]);
        println!("    with pairs i, n + i: {agree} where the ends agree, {differ} where not");
        println!(
            "    one change alone makes the ends differ: {}",
            self.one_alone
        );
        println!("    at the limit where the ends agree: {}", self.most_and_6);
        assert!(not_proper > count / 4 && flipped > count / 4);
        let most = limit(kind.window());
        assert!(self.sizes.keys().copied().eq(least(kind)..=most));
        assert!(self.sizes.values().all(|&sizes| sizes > count / 40));
        let often = [least(kind), 1, most];
        assert!(often.iter().all(|size| self.sizes[size] > count / 8));
        assert_eq!(self.edges.len(), 6);
        assert!(self.edges.values().all(|&edges| edges > count / 400));
        assert!(agree > count / 8 && differ > count / 20);
        assert!(self.one_alone > count / 8 && self.most_and_6 > count / 20);
    }
}

/// Random changes of each kind of windows, at least.
const CHANGES: usize = 200_000;

/// So many of each kind, or more if BALISE_DAMAGED says so.
#[test]
fn random() {
    let count = asked("BALISE_DAMAGED", CHANGES).max(CHANGES);
    for kind in KINDS {
        let mut trial = trial(kind, Outputs::SomeShort, 100);
        let mut counts = Counts::default();
        random_scattered(kind, count, 101, |window, scattered| {
            foretold_by_the_ends(window, scattered);
            refused_as_foretold(&mut trial, window, scattered);
            counts.add(window, scattered);
        });
        print(&trial, &format!("random changes of {kind}"));
        counts.print(kind, count);
        assert_eq!(trial.given, count);
    }
}

/// Every two changes of a window of each format.
#[test]
fn every_two() {
    for format in FORMATS {
        let kind = Kind::Of(format);
        let mut trial = trial(kind, Outputs::SomeShort, 102);
        let rows = appendix_b();
        let telegram = rows.iter().find(|row| row.format == format).unwrap();
        let window = Window::new(telegram, 100, true);
        for second in 1..window.bits.len() {
            for first in 0..second {
                let two = Scattered::new(vec![first, second]);
                refused_as_foretold(&mut trial, &window, &two);
            }
        }
        let name = format.name();
        print(&trial, &format!("times two changes of a {name} window"));
    }
}

/// All of the changes that are missed but one, each left out in turn.
fn all_but_one(missed: &Scattered) -> impl Iterator<Item = Scattered> + '_ {
    let places = missed.places();
    places.iter().map(|left_out| {
        let others = places.iter().filter(|place| *place != left_out);
        Scattered::new(others.copied().collect())
    })
}

/// Prints what was answered to the changes that are missed: 7 to 12, or accepted.
fn print_missed(trial: &Trial, what: &str) {
    println!("{} times {what}", trial.given);
    for (call, tally) in trial.calls.iter().zip(&trial.tallies) {
        let refused = |number| tally.refused(number);
        let not_proper: usize = (10..=12).map(refused).sum();
        let (rest, accepted) = ([7, 8, 9].map(refused), tally.accepted());
        println!(
            "    {}: 7, 8, 9: {rest:?}, 10 to 12: {not_proper}, accepted: {accepted}",
            call.name
        );
        let all = rest.iter().sum::<usize>() + not_proper + accepted;
        assert_eq!(all, trial.given);
    }
}

/// The changes that are missed, one more than the limit, are refused with neither 5
/// nor 6, whatever the window; with any one of them left out, with 6.
#[test]
fn one_more() {
    for format in FORMATS {
        let kind = Kind::Of(format);
        let missed = Scattered::missed(format);
        let many = missed.places().len();
        assert_eq!(many, limit(format) + 1);
        let mut beyond = trial(kind, Outputs::Room, 103);
        let draw = |_: &mut Random, _: &Window| missed.clone();
        random_damage(kind, 20_000, 104, draw, |window, missed| {
            let answers = beyond.give(window, missed);
            assert_eq!(answers[..2], answers[2..], "{window}, {missed}");
        });
        print_missed(
            &beyond,
            &format!("the {many} changes of {kind} that are missed"),
        );
        let mut within = trial(kind, Outputs::Room, 105);
        windows_of_one(format, |window| {
            for fewer in all_but_one(&missed) {
                assert_eq!(fewer.refusal(&window), Some(6));
                refused_as_foretold(&mut within, &window, &fewer);
            }
        });
        assert_eq!((beyond.given, within.given), (20_000, 4 * many));
    }
}

/// What is missed can be read as another telegram: of some windows of proper long
/// telegrams, with the 15 bits changed, `read` gives other user bits.
#[test]
fn read_as_another() {
    let (format, mut found) = (Format::Long, 0);
    let missed = Scattered::missed(format);
    for telegram in &random_proper(&mut Random::new(105), format) {
        for turn in 0..format.telegram_bits() {
            let window = Window::new(telegram, turn, false);
            let damaged = missed.damaged(&window);
            let [mut sent, mut read, mut by_second] = [[2; 830]; 3];
            if let Ok(wrong) = balise::read(&damaged, &mut read) {
                let right = balise::read(&window.bits, &mut sent).expect("a reading");
                second::read(&damaged, &mut by_second).expect("a reading");
                let differ = distance(&sent, &read);
                println!("{wrong:?}, {differ} user bits wrong, read of {window}, {missed}");
                assert!(wrong != right && differ > 0 && read == by_second);
                found += 1;
            }
        }
    }
    assert!(found > 0);
}
