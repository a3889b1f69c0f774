//! The two searches of a capture, `balise::search` and `balise::search_plain`: on
//! captures of every kind both answer the same, the place and all of the reading there
//! or a refusal, and so does the second program. Beyond the limit of the calls the
//! first places that the layers give by either search are compared.

use compare::calls::{search_by_both, Tally};
use compare::captures::{of_every_kind, print, Case};
use compare::on_all_processors;
use second::capture_kinds::{CaptureKind, Cost, Stock, CAPTURE_KINDS};
use second::format::FORMATS;
use second::random::Random;
use second::{first_found, Refusal, CAPTURE_LIMIT};

/// Captures of each kind and format, damaged and as many not, by what their places
/// cost.
fn count(cost: Cost) -> usize {
    match cost {
        Cost::Little => 300,
        Cost::Divisions => 200,
        Cost::AllTests => 100,
    }
}

/// There are captures of every length up to this one.
const SHORT_LENGTHS: usize = 1200;

/// Captures of each of these lengths and each format, besides a telegram going round.
const OF_A_LENGTH: usize = 5;

/// Captures beyond the limit, of each kind and format whose places cost little, and the
/// most bits that they have.
const BEYOND: usize = 12;
const MOST: usize = 60_000;

/// Compares the captures, and prints how many there were.
fn compare(what: &str, seed: u64, cases: &[Case]) {
    let stock = Stock::new(&mut Random::new(seed));
    let found = on_all_processors(cases, |i, case| {
        let number = seed << 32 | i as u64;
        let capture = case.capture(&stock, number);
        match search_by_both(&mut Random::new(number), &capture) {
            Ok(found) => Some(found.reading.format),
            Err(refusal) => {
                assert_eq!(refusal, Refusal::Number(13));
                None
            }
        }
    });
    print(what, cases, &found);
}

#[test]
fn captures_of_every_kind() {
    let cases = of_every_kind(&mut Random::new(210), count);
    compare("captures of every kind", 210, &cases);
}

/// A telegram going round, and captures of some other kinds.
#[test]
fn captures_of_every_short_length() {
    let mut random = Random::new(211);
    let kinds = CAPTURE_KINDS.iter();
    let kinds: Vec<&CaptureKind> = kinds.filter(|kind| kind.cost != Cost::AllTests).collect();
    let round = kinds.iter().find(|kind| kind.name.starts_with("a proper"));
    let round = *round.expect("a proper telegram going round");
    let mut cases = Vec::new();
    for length in 0..=SHORT_LENGTHS {
        for format in FORMATS {
            let others = (0..OF_A_LENGTH).map(|_| (kinds[random.below(kinds.len())], true));
            let others: Vec<_> = others.collect();
            for (kind, damaged) in others.into_iter().chain([(round, false)]) {
                cases.push(Case {
                    kind,
                    format,
                    length,
                    damaged: damaged && random.below(4) == 0,
                });
            }
        }
    }
    compare("captures of every short length", 211, &cases);
}

/// Captures with as many bits as are allowed, or few less.
#[test]
fn captures_at_the_limit() {
    let mut cases = Vec::new();
    for kind in &CAPTURE_KINDS {
        let lengths = match kind.cost {
            Cost::Little => 4,
            Cost::Divisions | Cost::AllTests => 1,
        };
        for less in 0..lengths {
            cases.extend(FORMATS.map(|format| Case {
                kind,
                format,
                length: CAPTURE_LIMIT - less,
                damaged: less == 3,
            }));
        }
    }
    compare("captures at the limit", 212, &cases);
}

/// A byte that is no bit, and a bit more than is allowed: refusals 2 and 1, whatever
/// else is in the capture.
#[test]
fn refused_before_the_search() {
    let mut random = Random::new(213);
    let stock = Stock::new(&mut random);
    let mut tally = Tally::default();
    for kind in &CAPTURE_KINDS {
        for format in FORMATS {
            for length in [1, 462, 1100, 2000, CAPTURE_LIMIT] {
                let mut capture = kind.capture(&stock, &mut random, format, length);
                for place in [0, random.below(length), length - 1] {
                    let bit = capture[place];
                    capture[place] = 2 + random.below(254) as u8;
                    let answer = search_by_both(&mut random, &capture);
                    assert_eq!(answer, Err(Refusal::Number(2)));
                    tally.add(answer);
                    capture[place] = bit;
                }
                capture.resize(CAPTURE_LIMIT + 1, random.number() as u8);
                let answer = search_by_both(&mut random, &capture);
                assert_eq!(answer, Err(Refusal::Number(1)));
                tally.add(answer);
            }
        }
    }
    tally.print("captures refused before the search, by number");
}

/// Captures over the limit: many of kinds whose places cost little, few of the others.
fn beyond_the_limit(random: &mut Random) -> Vec<Case> {
    let mut cases = Vec::new();
    for kind in &CAPTURE_KINDS {
        let (count, most) = match kind.cost {
            Cost::Little => (BEYOND, MOST),
            Cost::Divisions => (3, MOST),
            Cost::AllTests => (3, MOST / 4),
        };
        for format in FORMATS {
            cases.extend((0..count).map(|i| Case {
                kind,
                format,
                length: match i {
                    0 => most,
                    1 => CAPTURE_LIMIT + 1,
                    _ => CAPTURE_LIMIT + 1 + random.below(most - CAPTURE_LIMIT),
                },
                damaged: i % 3 == 2,
            }));
        }
    }
    cases
}

/// The first place of the layers, by either search, is that of the second program, but
/// where that would take too long: then it is compared by the two alone.
#[test]
fn captures_beyond_the_limit() {
    let cases = beyond_the_limit(&mut Random::new(214));
    let stock = Stock::new(&mut Random::new(214));
    let found = on_all_processors(&cases, |i, case| {
        let capture = case.capture(&stock, 214 << 32 | i as u64);
        let place = layers::first_place(&capture);
        assert_eq!(layers::first_place_plain(&capture), place);
        if case.kind.cost == Cost::AllTests {
            assert_eq!(place, None);
            return None;
        }
        let found = first_found(&capture);
        assert_eq!(found.as_ref().map(|found| found.place), place);
        found.map(|found| found.reading.format)
    });
    print("captures beyond the limit", &cases, &found);
}
