//! Conditions 2, 3 and 4 of a proper telegram (document 01, "Four conditions
//! of a proper telegram"; condition 2 by document 02, No. 5). They look at any
//! n bits, well-formed or not.

use crate::bits::distance;
use crate::format::Format;
use crate::refusal::{self, Refusal};
use crate::words::{self, valid, WORD_BITS};

/// How condition 2 counts its runs.
#[derive(Clone, Copy, Debug, PartialEq, Eq)]
pub enum Course {
    /// On the straight strip that ends at b0, as document 01 had it before
    /// document 02, No. 5. Only to compare with, and for parts of a telegram.
    Strip,
    /// Round the ring of n/11 words: the rule, by document 02, No. 5.
    Ring,
}

/// The longest run of valid words in a thinned telegram that is let pass.
pub const THINNED_RUN: usize = 30;

/// The longest run of valid words that condition 2 lets pass at step p.
pub fn off_step_limit(p: usize, format: Format) -> usize {
    match (p, format) {
        (1 | 10, _) => 2,
        (_, Format::Long) => 10,
        (_, Format::Short) => 6,
    }
}

/// Which words are valid, cut from the front of a list of bits.
fn validity(bits: &[u8]) -> Vec<bool> {
    bits.chunks_exact(WORD_BITS)
        .map(|word| valid(words::of_bits(word)))
        .collect()
}

/// The longest run of `true` in a list.
fn longest_run(valid: &[bool]) -> usize {
    valid
        .split(|&valid| !valid)
        .map(<[bool]>::len)
        .max()
        .unwrap_or(0)
}

/// The longest run of `true` in a ring; the whole ring if all are.
fn longest_run_round(valid: &[bool]) -> usize {
    longest_run(&[valid, valid].concat()).min(valid.len())
}

/// The longest run of valid words cut from b(n-1-p) on. On the strip, a part
/// of a telegram from its left end may stand for the telegram; a part is no
/// ring.
pub fn off_step_run(telegram: &[u8], p: usize, course: Course) -> usize {
    match course {
        Course::Strip => longest_run(&validity(&telegram[p..])),
        Course::Ring => longest_run_round(&validity(&[&telegram[p..], &telegram[..p]].concat())),
    }
}

/// Condition 2 with the runs counted either way.
pub fn off_step(telegram: &[u8], format: Format, course: Course) -> bool {
    (1..=10).all(|p| off_step_run(telegram, p, course) <= off_step_limit(p, format))
}

/// Condition 2, round the ring. A ring all valid is longer than every limit.
pub fn condition_2(telegram: &[u8], format: Format) -> bool {
    off_step(telegram, format, Course::Ring)
}

/// The 22 bits b(i-1), b(i-2), .. of a telegram going round.
fn twenty_two(telegram: &[u8], i: isize) -> Vec<u8> {
    let n = telegram.len() as isize;
    (1..=22)
        .map(|j| {
            let index = (i - j).rem_euclid(n);
            telegram[(n - 1 - index) as usize]
        })
        .collect()
}

/// The places in which the 22 bits from b(i-1) and from b(i-341-k-1) differ.
pub fn period_distance(telegram: &[u8], i: isize, k: isize) -> usize {
    distance(&twenty_two(telegram, i), &twenty_two(telegram, i - 341 - k))
}

/// Condition 3; a short telegram meets it.
pub fn condition_3(telegram: &[u8], format: Format) -> bool {
    if format == Format::Short {
        return true;
    }
    (0..format.telegram_bits() as isize)
        .step_by(WORD_BITS)
        .all(|i| {
            period_distance(telegram, i, 0) >= 3
                && [1, -1, 2, -2, 3, -3]
                    .into_iter()
                    .all(|k| period_distance(telegram, i, k) >= 2)
        })
}

/// The telegram thinned 2^k times, v(n-1) first, with v(j) = b(j * 2^k).
pub fn thinned(telegram: &[u8], k: u32) -> Vec<u8> {
    let n = telegram.len();
    (0..n)
        .rev()
        .map(|j| telegram[n - 1 - (j << k) % n])
        .collect()
}

/// The telegram that, thinned 2^k times, is v.
pub fn unthinned(v: &[u8], k: u32) -> Vec<u8> {
    let n = v.len();
    let mut telegram = vec![0; n];
    for j in 0..n {
        telegram[n - 1 - (j << k) % n] = v[n - 1 - j];
    }
    telegram
}

/// The longest run round the ring of words of the telegram thinned 2^k times,
/// the words cut `alignment` bits after v(n-1).
pub fn thinned_run(telegram: &[u8], k: u32, alignment: usize) -> usize {
    let v = thinned(telegram, k);
    longest_run_round(&validity(&[&v[alignment..], &v[..alignment]].concat()))
}

/// Condition 4. A ring all valid is longer than the limit in both formats.
pub fn condition_4(telegram: &[u8]) -> bool {
    (1..=4)
        .all(|k| (0..WORD_BITS).all(|alignment| thinned_run(telegram, k, alignment) <= THINNED_RUN))
}

/// A condition: whether it holds.
type Condition = fn(&[u8], Format) -> bool;

/// The refusals of those of conditions 2, 3 and 4 that fail, lowest first.
pub fn failing_conditions(telegram: &[u8], format: Format) -> impl Iterator<Item = Refusal> + '_ {
    let conditions: [(Refusal, Condition); 3] = [
        (refusal::OFF_STEP, condition_2),
        (refusal::PERIOD, condition_3),
        (refusal::THINNED, |telegram, _| condition_4(telegram)),
    ];
    conditions
        .into_iter()
        .filter(move |(_, holds)| !holds(telegram, format))
        .map(|(refusal, _)| refusal)
}
