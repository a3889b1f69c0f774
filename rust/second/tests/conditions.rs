//! The limits of conditions 2, 3 and 4 on made lists of n bits: runs 2 and 3,
//! 6 and 7, 10 and 11, 30 and 31, each also across the seam from b0 to b(n-1);
//! differences 2 and 3, 1 and 2.

use second::conditions::*;
use second::format::{Format, FORMATS};
use second::made::{valid_words, with_stretch};
use second::random::Random;
use second::rings::{one_run, ring_of_words};

/// n bits with a run of just `run` words at step p from word `first` on, going
/// round, at which the other steps hold.
fn with_run(random: &mut Random, format: Format, p: usize, first: usize, run: usize) -> Vec<u8> {
    ring_of_words(random, format, p, &one_run(format.words(), first, run))
}

#[test]
fn off_step_limits() {
    assert_eq!(off_step_limit(1, Format::Long), 2);
    assert_eq!(off_step_limit(10, Format::Long), 2);
    assert_eq!(off_step_limit(1, Format::Short), 2);
    assert_eq!(off_step_limit(10, Format::Short), 2);
    for p in 2..=9 {
        assert_eq!(off_step_limit(p, Format::Long), 10);
        assert_eq!(off_step_limit(p, Format::Short), 6);
    }
}

/// A run on the strip is the same run round the ring.
#[test]
fn off_step_runs() {
    let mut random = Random::new(10);
    for format in FORMATS {
        let on_strip = format.words() - 1;
        for p in 1..=10 {
            let limit = off_step_limit(p, format);
            for run in [limit, limit + 1] {
                for first in [0, 1, on_strip / 2, on_strip - run] {
                    let bits = with_run(&mut random, format, p, first, run);
                    assert_eq!(off_step_run(&bits, p, Course::Strip), run);
                    assert_eq!(off_step_run(&bits, p, Course::Ring), run);
                    assert_eq!(off_step(&bits, format, Course::Strip), run <= limit);
                    assert_eq!(condition_2(&bits, format), run <= limit);
                }
            }
        }
    }
}

/// Runs across the seam, with each number of words before the word that
/// crosses it. On the strip that word does not count, and cuts the run in two.
#[test]
fn off_step_runs_across_the_seam() {
    let mut random = Random::new(11);
    for format in FORMATS {
        let crossing = format.words() - 1;
        for p in 1..=10 {
            let limit = off_step_limit(p, format);
            for run in [limit, limit + 1] {
                for before in 0..run {
                    let after = run - 1 - before;
                    let bits = with_run(&mut random, format, p, crossing - before, run);
                    assert_eq!(off_step_run(&bits, p, Course::Strip), before.max(after));
                    assert_eq!(off_step_run(&bits, p, Course::Ring), run);
                    assert!(off_step(&bits, format, Course::Strip));
                    assert_eq!(condition_2(&bits, format), run <= limit);
                }
            }
        }
    }
}

/// Runs at the limit all round the ring, with one word that is not valid after
/// each, at every turn of the ring; so one of them crosses the seam.
#[test]
fn off_step_runs_apart() {
    let mut random = Random::new(12);
    for format in FORMATS {
        let words = format.words();
        for p in 1..=10 {
            let limit = off_step_limit(p, format);
            for turn in 0..words {
                let mut which: Vec<bool> = (1..=words)
                    .map(|index| index % (limit + 1) != 0 && index < words)
                    .collect();
                which.rotate_right(turn);
                let bits = ring_of_words(&mut random, format, p, &which);
                assert_eq!(off_step_run(&bits, p, Course::Ring), limit);
                assert!(condition_2(&bits, format));
            }
        }
    }
}

/// A ring all valid at a step, and one with a single word that is not, at each
/// place.
#[test]
fn off_step_all_valid() {
    let mut random = Random::new(13);
    for format in FORMATS {
        let words = format.words();
        for p in 1..=10 {
            let bits = ring_of_words(&mut random, format, p, &vec![true; words]);
            assert_eq!(off_step_run(&bits, p, Course::Strip), words - 1);
            assert_eq!(off_step_run(&bits, p, Course::Ring), words);
            assert!(!condition_2(&bits, format));
            for place in 0..words {
                let mut which = vec![true; words];
                which[place] = false;
                let bits = ring_of_words(&mut random, format, p, &which);
                assert_eq!(off_step_run(&bits, p, Course::Ring), words - 1);
                assert!(!condition_2(&bits, format));
            }
        }
    }
}

#[test]
fn period_distances() {
    let n = 1023;
    let mut random = Random::new(14);
    for k in [0, 1, -1, 2, -2, 3, -3] {
        let least = if k == 0 { 3 } else { 2 };
        for i in (0..n).step_by(11) {
            for differing in [least - 1, least] {
                let bits = loop {
                    let mut bits = random.bits(n as usize);
                    let at = |index: isize| (n - 1 - index.rem_euclid(n)) as usize;
                    for j in 1..=22 {
                        bits[at(i - 341 - k - j)] = bits[at(i - j)];
                    }
                    for place in random.places(differing, 22) {
                        bits[at(i - 341 - k - 1 - place as isize)] ^= 1;
                    }
                    let fine = (0..n).step_by(11).all(|other| {
                        [0, 1, -1, 2, -2, 3, -3].into_iter().all(|l| {
                            (other, l) == (i, k)
                                || period_distance(&bits, other, l) >= if l == 0 { 3 } else { 2 }
                        })
                    });
                    if fine {
                        break bits;
                    }
                };
                assert_eq!(period_distance(&bits, i, k), differing);
                assert_eq!(condition_3(&bits, Format::Long), differing >= least);
            }
        }
    }
    assert!(condition_3(&[0; 341], Format::Short));
    assert!(!condition_3(&[0; 1023], Format::Long));
}

#[test]
fn thinned_runs() {
    let mut random = Random::new(15);
    for format in FORMATS {
        let n = format.telegram_bits();
        for k in 1..=4 {
            for alignment in 0..11 {
                for first in [0, 7, format.words() - 3] {
                    for run in [30, 31] {
                        let stretch = valid_words(&mut random, run);
                        let v = with_stretch(n, alignment + 11 * first, &stretch);
                        let bits = unthinned(&v, k);
                        assert_eq!(thinned(&bits, k), v);
                        assert_eq!(thinned_run(&bits, k, alignment), run);
                        assert_eq!(condition_4(&bits), run == 30);
                    }
                }
                let all = with_stretch(n, alignment, &valid_words(&mut random, format.words()));
                let bits = unthinned(&all, k);
                assert_eq!(thinned_run(&bits, k, alignment), format.words());
                assert!(!condition_4(&bits));
            }
        }
    }
}

/// v(j) = b(j * 2^k) written out for one place.
#[test]
fn thinned_places() {
    let mut bits = vec![0; 341];
    bits[340 - 2 * 170] = 1;
    assert_eq!(thinned(&bits, 1)[340 - 170], 1);
    let mut bits = vec![0; 1023];
    bits[1022 - 16 * 70 % 1023] = 1;
    assert_eq!(thinned(&bits, 4)[1022 - 70], 1);
}
