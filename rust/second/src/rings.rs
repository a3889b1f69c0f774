//! Rings of words made for the test programs, in the table or not as a list
//! says.

use crate::conditions::{off_step_limit, off_step_run, Course};
use crate::format::Format;
use crate::made::{bits_of_words, with_stretch};
use crate::random::Random;
use crate::words::{valid, WORD_BITS};

/// Which words of a ring are valid: only `run` of them from word `first` on,
/// going round.
pub fn one_run(words: usize, first: usize, run: usize) -> Vec<bool> {
    (0..words)
        .map(|index| (index + words - first) % words < run)
        .collect()
}

/// Which words of a ring are valid: runs of the limit and of one word less, and
/// in some rings one of one word more, with one word between that is not valid.
/// What is left over is a run too, and the ring is turned.
pub fn runs_about(random: &mut Random, words: usize, limit: usize) -> Vec<bool> {
    let mut which = Vec::with_capacity(words);
    // the first run from this word on is the longer one
    let mut longer = random.below(2 * words);
    while which.len() < words {
        let left = words - which.len() - 1;
        let run = if left <= limit + 1 {
            left
        } else if which.len() >= longer {
            longer = words;
            limit + 1
        } else {
            limit - random.below(2)
        };
        which.extend(vec![true; run]);
        which.push(false);
    }
    which.rotate_right(random.below(words));
    which
}

/// Does condition 2 hold round the ring at every step other than p?
pub fn other_steps_hold(ring: &[u8], format: Format, p: usize) -> bool {
    (1..=10)
        .filter(|&q| q != p)
        .all(|q| off_step_run(ring, q, Course::Ring) <= off_step_limit(q, format))
}

/// A word of a ring being made, and the runs that end with the word before it
/// and this one at each other step.
type Placed = (u16, [usize; WORD_BITS]);

/// Draws of a word, before the last ones are drawn again.
const DRAWS: usize = 200;

/// A word that follows another at step p, valid or not, without a run over the
/// limit at another step.
fn following(
    random: &mut Random,
    format: Format,
    p: usize,
    last: Option<&Placed>,
    wanted: bool,
) -> Option<Placed> {
    (0..DRAWS).find_map(|_| {
        let word = random.below(2048) as u16;
        let mut runs = [0; WORD_BITS];
        if let Some((before, earlier)) = last {
            for shift in 1..WORD_BITS {
                let across = (before << shift | word >> (WORD_BITS - shift)) & 2047;
                runs[shift] = if valid(across) { earlier[shift] + 1 } else { 0 };
            }
        }
        let holds = (1..WORD_BITS).all(|shift| match (p + shift) % WORD_BITS {
            0 => true,
            q => runs[shift] <= off_step_limit(q, format),
        });
        (holds && valid(word) == wanted).then_some((word, runs))
    })
}

/// n bits whose words at step p, from b(n-1-p) on and round the ring, are valid
/// or not as `which` says, and at which the other steps hold.
pub fn ring_of_words(random: &mut Random, format: Format, p: usize, which: &[bool]) -> Vec<u8> {
    loop {
        let mut placed: Vec<Placed> = Vec::with_capacity(which.len());
        while placed.len() < which.len() {
            match following(random, format, p, placed.last(), which[placed.len()]) {
                Some(next) => placed.push(next),
                None => placed.truncate(placed.len().saturating_sub(2)),
            }
        }
        let words: Vec<u16> = placed.iter().map(|&(word, _)| word).collect();
        let ring = with_stretch(format.telegram_bits(), p, &bits_of_words(&words));
        if other_steps_hold(&ring, format, p) {
            return ring;
        }
    }
}

/// The bits of random words, each in the table or not as `which` says.
pub fn words_as(random: &mut Random, which: &[bool]) -> Vec<u8> {
    let words: Vec<u16> = which
        .iter()
        .map(|&wanted| loop {
            let word = random.below(2048) as u16;
            if valid(word) == wanted {
                return word;
            }
        })
        .collect();
    bits_of_words(&words)
}
