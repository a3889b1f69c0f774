//! Prints data/strip-passes-ring-refuses.txt, a telegram a line: of each
//! format, long first, and for each p from 1 to 10 one that condition 2 alone
//! bars, by a single run at step p, one word over the limit, across the seam
//! from b0 to b(n-1). The text is the same at every run.

use second::bits::{bits_of, text};
use second::conditions::{
    condition_3, condition_4, off_step, off_step_limit, off_step_run, Course,
};
use second::format::{Format, FORMATS};
use second::made::valid_words;
use second::random::Random;
use second::rings::other_steps_hold;
use second::telegram::{complete, well_formed, B_VALUES, CONTROL, ESB_VALUES};
use second::words::{of_bits, valid, WORD_BITS};

fn main() {
    let mut random = Random::new(5);
    for format in FORMATS {
        for p in 1..=10 {
            println!("{}", text(&telegram(&mut random, format, p)));
        }
    }
}

/// The words of the run that stand before the one across the seam: 0 to 3, and
/// within the limit.
fn before(p: usize) -> usize {
    p % 4
}

/// The telegram for a step.
fn telegram(random: &mut Random, format: Format, p: usize) -> Vec<u8> {
    let after = off_step_limit(p, format) - before(p);
    loop {
        let shaped = shaped_data(random, format, p, after);
        if off_step(&shaped, format, Course::Strip) {
            if let Some(telegram) = completed(&shaped, format, p) {
                return telegram;
            }
        }
    }
}

/// Shaped data that begins, at step p, with just so many valid words.
fn shaped_data(random: &mut Random, format: Format, p: usize, run: usize) -> Vec<u8> {
    let front = loop {
        let front = valid_words(random, run + 2);
        let off_step = front[p..].chunks_exact(WORD_BITS);
        if off_step
            .map(|word| valid(of_bits(word)))
            .eq((0..=run).map(|index| index < run))
        {
            break front;
        }
    };
    let back = valid_words(random, format.blocks() - run - 2);
    [front, back].concat()
}

/// Values of B tried with one list of shaped data; there are lists that no pair
/// makes a wanted telegram of.
const TRIED: usize = 64;

/// A telegram of this shaped data that is wanted.
fn completed(shaped: &[u8], format: Format, p: usize) -> Option<Vec<u8>> {
    (0..B_VALUES)
        .filter(|&b| {
            let front = [&CONTROL[..], &bits_of((b >> 4).into(), 8)].concat();
            valid(of_bits(&front))
        })
        .take(TRIED)
        .flat_map(|b| (0..ESB_VALUES).map(move |esb| (b, esb)))
        .map(|(b, esb)| complete(shaped, b, esb, format))
        .find(|telegram| wanted(telegram, format, p))
}

/// Does condition 2 alone bar this telegram, by one word at step p, and did it
/// not on the strip?
fn wanted(telegram: &[u8], format: Format, p: usize) -> bool {
    well_formed(telegram, format)
        && off_step_run(telegram, p, Course::Ring) == off_step_limit(p, format) + 1
        && off_step(telegram, format, Course::Strip)
        && other_steps_hold(telegram, format, p)
        && condition_3(telegram, format)
        && condition_4(telegram)
}
