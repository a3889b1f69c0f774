//! The captures that are made for the test programs are of the kinds that they are said
//! to be.

use second::capture_kinds::{damage, with_runs, CaptureKind, Stock, CAPTURE_KINDS};
use second::format::{Format, FORMATS};
use second::random::Random;
use second::{first_found, read, Found};
use std::collections::BTreeSet;

/// The kind with this name.
fn kind(name: &str) -> &'static CaptureKind {
    let mut kinds = CAPTURE_KINDS.iter();
    kinds.find(|kind| kind.name == name).expect(name)
}

/// Does the pair at j agree?
fn agrees(capture: &[u8], format: Format, j: usize) -> bool {
    capture[j] == capture[j + format.telegram_bits()]
}

/// The runs of a capture, with those of no pair at all.
fn runs(capture: &[u8], format: Format) -> Vec<usize> {
    let pairs: Vec<bool> = (0..capture.len() - format.telegram_bits())
        .map(|j| agrees(capture, format, j))
        .collect();
    pairs.split(|&agrees| !agrees).map(<[bool]>::len).collect()
}

/// Captures of a kind, of each format, some bits longer than a long window or many.
fn captures(name: &str, mut test: impl FnMut(Format, &[u8])) {
    let mut random = Random::new(200);
    let stock = Stock::new(&mut random);
    for format in FORMATS {
        for _ in 0..20 {
            let length = 1102 + random.below(2000);
            let capture = kind(name).capture(&stock, &mut random, format, length);
            assert_eq!(capture.len(), length);
            test(format, &capture);
        }
    }
}

/// The place that is found, and its format.
fn found(capture: &[u8]) -> Option<(usize, Format)> {
    first_found(capture).map(|Found { place, reading, .. }| (place, reading.format))
}

/// Every kind gives captures of every length, down to none.
#[test]
fn lengths() {
    let mut random = Random::new(201);
    let stock = Stock::new(&mut random);
    for kind in &CAPTURE_KINDS {
        for length in (0..1300).step_by(47) {
            for format in FORMATS {
                let mut capture = kind.capture(&stock, &mut random, format, length);
                assert_eq!(capture.len(), length, "{}", kind.name);
                damage(&mut random, &mut capture);
                assert!(capture.iter().all(|&bit| bit <= 1));
            }
        }
    }
}

#[test]
fn windows() {
    captures("a proper telegram going round", |format, capture| {
        assert_eq!(found(capture), Some((0, format)));
        let w = format.window_bits();
        assert_eq!(found(&capture[..w]), Some((0, format)));
        assert_eq!(found(&capture[..w - 1]), None);
    });
    captures("noise, a window in it", |format, capture| {
        assert_eq!(found(capture).map(|found| found.1), Some(format));
    });
    captures("noise, a window at the last place", |format, capture| {
        let last = capture.len() - format.window_bits();
        assert_eq!(found(capture), Some((last, format)));
    });
    captures("runs, a window after them", |_, capture| {
        assert!(found(capture).is_some());
    });
    captures("a window, runs after it", |_, capture| {
        assert_eq!(found(capture).map(|found| found.0), Some(0));
    });
}

#[test]
fn no_window() {
    for name in [
        "noise",
        "all bits alike",
        "other control bits, going round",
        "noise, a window one bit short at the end",
        "noise, a window of which one pair differs",
        "runs of r",
        "runs of r - 1",
        "runs of r + 1",
        "runs of about r",
    ] {
        captures(name, |_, capture| {
            assert_eq!(found(capture), None, "{name}")
        });
    }
}

/// Up to the place of some windows after runs of the other format goes a run of r.
#[test]
fn run_up_to_a_window() {
    let mut random = Random::new(204);
    let stock = Stock::new(&mut random);
    for format in FORMATS {
        let (n, r) = (format.telegram_bits(), format.extra_bits());
        let mut count = 0;
        for _ in 0..100 {
            let kind = kind("runs, a window after them");
            let capture = kind.capture(&stock, &mut random, format, 2500);
            let (place, window_format) = found(&capture).expect("a window");
            if window_format != format && r <= place && place + n <= capture.len() {
                let agree = (place - r..place).all(|j| agrees(&capture, format, j));
                count += usize::from(agree);
            }
        }
        println!("{count} runs of r up to a window, {}", format.name());
        assert!(count > 0);
    }
}

/// All runs but the first and the last have just the length that is said.
#[test]
fn runs_of_a_length() {
    for (name, more) in [("runs of r - 1", 0), ("runs of r", 1), ("runs of r + 1", 2)] {
        captures(name, |format, capture| {
            let runs = runs(capture, format);
            let inner = &runs[1..runs.len().max(2) - 1];
            let expected = format.extra_bits() - 1 + more;
            assert!(inner.iter().all(|&run| run == expected), "{name} {runs:?}");
            assert!(runs.iter().all(|&run| run <= expected));
        });
    }
}

#[test]
fn any_runs() {
    let mut random = Random::new(202);
    for format in FORMATS {
        let wanted: Vec<usize> = (0..100).map(|_| random.below(200)).collect();
        let length = format.telegram_bits() + wanted.iter().map(|run| run + 1).sum::<usize>();
        let mut left = wanted.iter().copied();
        let next = |_: &mut Random| left.next().unwrap_or(0);
        let capture = with_runs(&mut random, format, length, next);
        // after the last pair that differs nothing is left
        assert_eq!(runs(&capture, format), [&wanted[..], &[0]].concat());
    }
}

/// What going round is refused is refused with every number that there is.
#[test]
fn refused() {
    let mut random = Random::new(203);
    let stock = Stock::new(&mut random);
    for format in FORMATS {
        let mut numbers = BTreeSet::new();
        for _ in 0..1000 {
            let kind = kind("refused for anything, going round");
            let window = kind.capture(&stock, &mut random, format, format.window_bits());
            let refusal = read(&window, &mut [0; 830]).expect_err("a refusal");
            numbers.insert(refusal.number());
        }
        let mut all: Vec<u8> = (6..=12).collect();
        // a short telegram meets condition 3
        all.retain(|&number| number != 11 || format == Format::Long);
        assert_eq!(numbers, BTreeSet::from_iter(all));
    }
}

/// Of windows that overlap the one of the format that is said comes first, or lacks
/// bits, and the other one is found; both are read in many captures.
#[test]
fn overlapping() {
    for expected in FORMATS {
        let (mut both, mut first, mut other) = (0, 0, 0);
        captures("two windows that overlap", |format, capture| {
            let Some((place, found_format)) = found(capture) else {
                return;
            };
            if format != expected {
                return;
            }
            if found_format != format {
                other += 1;
                return;
            }
            first += 1;
            let rest = found_other(capture, place, format);
            both += usize::from(rest.is_some_and(|later| later < format.window_bits()));
        });
        let name = expected.name();
        println!("{name} first {first}, of these the other one too {both}; only that {other}");
        assert!(both > 0 && other > 0);
    }
}

/// How far behind a place the next window of the other format is.
fn found_other(capture: &[u8], place: usize, format: Format) -> Option<usize> {
    let other = FORMATS.into_iter().find(|&other| other != format)?;
    let windows = capture[place..].windows(other.window_bits());
    windows
        .enumerate()
        .find(|(_, window)| read(window, &mut [0; 830]).is_ok())
        .map(|(later, _)| later)
}
