//! Conditions 2, 3 and 4 on made bits: runs of table words at and over each
//! limit, at every place of the ring, and bits that repeat after a third of the
//! telegram.

use compare::long;
use compare::telegrams::repeating_bits;
use second::conditions::{
    condition_2, condition_3, condition_4, off_step, off_step_limit, unthinned, Course, THINNED_RUN,
};
use second::format::{Format, FORMATS};
use second::made::{valid_words, with_stretch};
use second::random::Random;
use second::rings::{one_run, ring_of_words, runs_about, words_as};

/// Condition 2, on which both programs must agree.
fn off_step_holds(format: Format, bits: &[u8]) -> bool {
    let holds = condition_2(bits, format);
    assert_eq!(layers::off_step(long(format), bits), holds);
    holds
}

/// Condition 4, on which both programs must agree.
fn thinned_holds(format: Format, bits: &[u8]) -> bool {
    let holds = condition_4(bits);
    assert_eq!(layers::thinned_out(long(format), bits), holds);
    holds
}

/// The limit that decides at step p; at 0 none does.
fn limit_at(p: usize, format: Format) -> Option<usize> {
    (p > 0).then(|| off_step_limit(p, format))
}

/// How many held, and how many did not.
#[derive(Default)]
struct Outcomes {
    held: usize,
    failed: usize,
}

impl Outcomes {
    fn add(&mut self, holds: bool) {
        self.held += usize::from(holds);
        self.failed += usize::from(!holds);
    }

    /// Prints them; each must be there so often.
    fn print(&self, what: &str, format: Format, least: usize) {
        let (held, failed) = (self.held, self.failed);
        println!("{}, {what}: {held} hold, {failed} fail", format.name());
        assert!(held >= least && failed >= least);
    }
}

/// `run` table words in a row from a place on, in a ring of zeros.
fn ring_with_run(random: &mut Random, format: Format, place: usize, run: usize) -> Vec<u8> {
    let stretch = valid_words(random, run);
    with_stretch(format.telegram_bits(), place, &stretch)
}

/// A run from each word of the ring on, so that it also begins at the first
/// word, ends at the last, begins there, and crosses the seam at every word.
/// The other steps hold, and its length alone decides; at step 0 it does not.
#[test]
fn condition_2_agrees_at_its_limits() {
    let mut random = Random::new(21);
    for format in FORMATS {
        let words = format.words();
        for p in 0..=10 {
            let mut outcomes = Outcomes::default();
            for first in 0..words {
                for run in 1..=12 {
                    let which = one_run(words, first, run);
                    let ring = ring_of_words(&mut random, format, p, &which);
                    let holds = limit_at(p, format).is_none_or(|limit| run <= limit);
                    assert_eq!(off_step_holds(format, &ring), holds, "{p} {first} {run}");
                    outcomes.add(holds);
                }
            }
            let least = if p == 0 { 0 } else { words };
            outcomes.print(&format!("p {p}, a single run"), format, least);
        }
    }
}

/// Draws of a run across the seam, for each step, length and place.
const DRAWS: usize = 100;

/// Does a telegram pass on the strip, and fail round the ring, as both programs
/// must say?
fn tells(telegram: &[u8], format: Format) -> bool {
    !off_step_holds(format, telegram) && off_step(telegram, format, Course::Strip)
}

/// Runs of the limit and of one word more across the seam from b0 to b(n-1):
/// `before` words, the word across it, and the others. A run one word over the
/// limit is too long round the ring, and on the strip is cut into two that are
/// not, so that it tells the ring from the strip, unless its words, cut at
/// another step, run too long on the strip. For each format, p and `before`
/// there are some that do, and some runs of the limit that hold.
#[test]
fn condition_2_counts_round_the_ring() {
    let mut random = Random::new(22);
    for format in FORMATS {
        for p in 1..=10 {
            let limit = off_step_limit(p, format);
            let mut runs = |before: usize, run: usize| {
                let place = format.telegram_bits() + p - 11 * (before + 1);
                let draw = || ring_with_run(&mut random, format, place, run);
                std::iter::repeat_with(draw).take(DRAWS).collect::<Vec<_>>()
            };
            let holding: Vec<usize> = (0..limit)
                .map(|before| runs(before, limit))
                .map(|runs| {
                    runs.iter()
                        .filter(|run| off_step_holds(format, run))
                        .count()
                })
                .collect();
            let telling: Vec<usize> = (0..=limit)
                .map(|before| runs(before, limit + 1))
                .map(|runs| runs.iter().filter(|run| tells(run, format)).count())
                .collect();
            println!(
                "{}, p {p}: of {DRAWS} runs with 0, 1, .. words before the seam, of {limit} words hold: {holding:?}; of {} words tell ring from strip: {telling:?}",
                format.name(),
                limit + 1
            );
            assert!(holding.iter().chain(&telling).all(|&count| count > 0));
        }
    }
}

/// Rings all valid at a step, and with a single word that is not, at each
/// place: they fail at every step but 0.
#[test]
fn condition_2_fails_on_rings_all_valid() {
    let mut random = Random::new(25);
    for format in FORMATS {
        let words = format.words();
        for p in 0..=10 {
            let mut which = vec![true; words];
            let ring = ring_of_words(&mut random, format, p, &which);
            assert_eq!(off_step_holds(format, &ring), p == 0);
            for place in 0..words {
                which[place] = false;
                let ring = ring_of_words(&mut random, format, p, &which);
                assert_eq!(off_step_holds(format, &ring), p == 0, "{p} {place}");
                which[place] = true;
            }
            // with whatever comes at the other steps
            let any = valid_words(&mut random, words);
            let ring = with_stretch(format.telegram_bits(), p, &any);
            assert!(!off_step_holds(format, &ring) || p == 0);
        }
    }
}

/// The longest run of a ring.
fn longest(which: &[bool]) -> usize {
    let twice = [which, which].concat();
    let runs = twice.split(|&valid| !valid).map(<[bool]>::len);
    runs.max().unwrap_or(0).min(which.len())
}

/// Dense rings drawn for each step.
const RINGS: usize = 300;

/// Rings full of runs of about the limit, one of them at most over it.
#[test]
fn condition_2_agrees_on_dense_rings() {
    let mut random = Random::new(26);
    for format in FORMATS {
        for p in 0..=10 {
            let limit = limit_at(p, format);
            let mut outcomes = Outcomes::default();
            for _ in 0..RINGS {
                let which = runs_about(&mut random, format.words(), limit.unwrap_or(10));
                let ring = ring_of_words(&mut random, format, p, &which);
                let holds = limit.is_none_or(|limit| longest(&which) <= limit);
                assert_eq!(off_step_holds(format, &ring), holds, "{p} {which:?}");
                outcomes.add(holds);
            }
            let least = if p == 0 { 0 } else { RINGS / 5 };
            outcomes.print(&format!("p {p}, dense rings"), format, least);
        }
    }
}

/// A run from each word of the ring on, at each alignment.
#[test]
fn condition_4_agrees_at_its_limit() {
    let mut random = Random::new(23);
    for format in FORMATS {
        let mut outcomes = Outcomes::default();
        for k in 1..=4 {
            for alignment in 0..11 {
                for first in 0..format.words() {
                    for run in [THINNED_RUN, THINNED_RUN + 1] {
                        let place = alignment + 11 * first;
                        let v = ring_with_run(&mut random, format, place, run);
                        let holds = thinned_holds(format, &unthinned(&v, k));
                        assert_eq!(holds, run == THINNED_RUN, "{k} {alignment} {first}");
                        outcomes.add(holds);
                    }
                }
            }
        }
        outcomes.print("thinned, a single run", format, 44 * format.words());
    }
}

/// Dense rings for each thinning and alignment, and rings all valid.
#[test]
fn condition_4_agrees_on_dense_rings() {
    let mut random = Random::new(27);
    for format in FORMATS {
        let (n, words) = (format.telegram_bits(), format.words());
        let mut outcomes = Outcomes::default();
        for k in 1..=4 {
            for alignment in 0..11 {
                for round in 0..RINGS / 5 {
                    let which = match round % 4 {
                        0 => vec![true; words],
                        _ => runs_about(&mut random, words, THINNED_RUN),
                    };
                    let v = with_stretch(n, alignment, &words_as(&mut random, &which));
                    let holds = thinned_holds(format, &unthinned(&v, k));
                    assert_eq!(holds, longest(&which) <= THINNED_RUN, "{k} {alignment}");
                    outcomes.add(holds);
                }
            }
        }
        outcomes.print("thinned, dense rings", format, RINGS);
    }
}

#[test]
fn condition_3_agrees_on_bits_that_repeat() {
    let mut random = Random::new(24);
    let (mut holds, mut fails) = (0, 0);
    for round in 0..600 {
        let telegram = repeating_bits(&mut random, round % 6);
        let expected = condition_3(&telegram, Format::Long);
        assert_eq!(layers::not_repeating(true, &telegram), expected);
        holds += usize::from(expected);
        fails += usize::from(!expected);
    }
    assert!(holds > 50 && fails > 50, "{holds} {fails}");
    let short = random.bits(Format::Short.telegram_bits());
    assert!(layers::not_repeating(false, &short));
}
