//! The kept telegrams that are well-formed and not proper: which conditions fail,
//! and by how much.

use second::appendices::{only_the_ring_refuses, well_formed_not_proper};
use second::conditions::{
    failing_conditions, off_step_limit, off_step_run, period_distance, thinned_run, Course,
    THINNED_RUN,
};
use second::format::{Format, FORMATS};
use second::read::{read_bits, user_bits_of, Asked};
use second::rings::other_steps_hold;
use second::telegram::{b_of, cut, esb_of, well_formed};
use second::Refusal::Number;
use second::{check, Reading};

/// The telegrams of a format of which just the conditions with these refusals
/// fail.
fn kept(format: Format, numbers: &[u8]) -> Vec<Vec<u8>> {
    let mut telegrams = well_formed_not_proper();
    telegrams.retain(|telegram| {
        let failing = failing_conditions(telegram, format);
        let numbers = numbers.iter().copied().map(Number);
        telegram.len() == format.telegram_bits() && failing.eq(numbers)
    });
    telegrams
}

#[test]
fn well_formed_and_not_proper() {
    let (kept, ring) = (well_formed_not_proper(), only_the_ring_refuses());
    assert_eq!((kept.len(), ring.len()), (68, 20));
    for telegram in kept.iter().chain(&ring) {
        let format = Format::of_telegram(telegram.len()).unwrap();
        assert!(well_formed(telegram, format));
        assert!(matches!(check(telegram), Err(Number(10..=12))));
    }
    for telegram in &ring {
        let format = Format::of_telegram(telegram.len()).unwrap();
        assert!(failing_conditions(telegram, format).eq([Number(10)]));
    }
}

/// The lowest number is given.
#[test]
fn several_conditions() {
    for (format, numbers) in [
        (Format::Long, &[10, 11][..]),
        (Format::Long, &[10, 12]),
        (Format::Long, &[11, 12]),
        (Format::Long, &[10, 11, 12]),
        (Format::Short, &[10, 12]),
    ] {
        let kept = kept(format, numbers);
        assert_eq!(kept.len(), 2);
        for telegram in kept {
            assert_eq!(check(&telegram), Err(Number(numbers[0])));
        }
    }
}

#[test]
fn windows() {
    for telegram in well_formed_not_proper()
        .iter()
        .chain(&only_the_ring_refuses())
    {
        let format = Format::of_telegram(telegram.len()).unwrap();
        let refusal = check(telegram).unwrap_err();
        let user = user_bits_of(telegram, format).unwrap();
        for turn in (0..telegram.len()).step_by(31) {
            for flipped in [false, true] {
                let window = cut(telegram, turn, format.window_bits(), flipped);
                let reading = Reading {
                    format,
                    b: b_of(telegram, format),
                    turn,
                    flipped,
                    esb: esb_of(telegram, format),
                };
                let proper = read_bits(&window, format, Asked::Proper);
                assert_eq!(proper, Err(refusal));
                let well_formed = read_bits(&window, format, Asked::WellFormed);
                assert_eq!(well_formed, Ok((reading, user.clone())));
            }
        }
    }
}

/// A single run one word over the limit at each step, within the strip.
#[test]
fn off_step() {
    for format in FORMATS {
        let kept = kept(format, &[10]);
        assert_eq!(kept.len(), 10);
        for (telegram, p) in kept.iter().zip(1..) {
            for course in [Course::Strip, Course::Ring] {
                let run = off_step_run(telegram, p, course);
                assert_eq!(run, off_step_limit(p, format) + 1);
            }
            assert!(other_steps_hold(telegram, format, p));
        }
    }
}

/// For each k, one comparison a single place short, and one more across the
/// seam from b0 to b(n-1).
#[test]
fn repeating() {
    let n = 1023;
    let kept = kept(Format::Long, &[11]);
    assert_eq!(kept.len(), 14);
    let kinds = [0, 1, -1, 2, -2, 3, -3]
        .into_iter()
        .flat_map(|k| [(k, false), (k, true)]);
    for (telegram, (k, seam)) in kept.iter().zip(kinds) {
        let least = |k| if k == 0 { 3 } else { 2 };
        let short: Vec<(isize, isize)> = (0..n)
            .step_by(11)
            .flat_map(|i| (-3..=3).map(move |k| (i, k)))
            .filter(|&(i, k)| period_distance(telegram, i, k) < least(k))
            .collect();
        let [(i, at)] = short[..] else {
            panic!("{short:?}");
        };
        assert_eq!(at, k);
        assert_eq!(period_distance(telegram, i, k), least(k) - 1);
        // b(j-1) to b(j-22)
        let crosses = |j: isize| (j - 1).rem_euclid(n) < 21;
        assert_eq!(crosses(i) || crosses(i - 341 - k), seam);
    }
}

/// Runs of 31 words, in a short telegram the whole ring, at each thinning and
/// alignment.
#[test]
fn thinned() {
    for format in FORMATS {
        let kept = kept(format, &[12]);
        assert_eq!(kept.len(), 12);
        let (mut thinnings, mut alignments) = ([false; 4], [false; 11]);
        for telegram in &kept {
            let all = (1..=4).flat_map(|k| (0..11).map(move |alignment| (k, alignment)));
            let over: Vec<(u32, usize, usize)> = all
                .map(|(k, alignment)| (k, alignment, thinned_run(telegram, k, alignment)))
                .filter(|&(.., run)| run > THINNED_RUN)
                .collect();
            let [(k, alignment, run)] = over[..] else {
                panic!("{over:?}");
            };
            assert_eq!(run, THINNED_RUN + 1);
            thinnings[k as usize - 1] = true;
            alignments[alignment] = true;
        }
        assert_eq!((thinnings, alignments), ([true; 4], [true; 11]));
    }
}
