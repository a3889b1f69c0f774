//! Telegrams for the tests, made by the second program.

use second::appendices::{only_the_ring_refuses, well_formed_not_proper};
use second::bits::{distance, number_of};
use second::check;
use second::format::Format;
use second::made::{bits_of_words, random_word};
use second::random::Random;
use second::telegram::{complete, make, well_formed};
use second::words::valid;
use second::Refusal;

pub use second::made::{
    divided, encoded, random_telegram, random_telegrams, telegram_of, with_bits, with_word,
};

/// The kept telegrams that are well-formed and not proper.
pub fn kept_not_proper() -> Vec<Vec<u8>> {
    [well_formed_not_proper(), only_the_ring_refuses()].concat()
}

/// The first esb that, with this B, makes no telegram of a block: a word is not
/// in the table.
pub fn no_telegram(block: &[u8], b: u16, format: Format) -> u16 {
    (0..1024)
        .find(|&esb| !well_formed(&make(block, b, esb, format), format))
        .expect("an esb")
}

/// A word outside the table.
pub fn other_word(random: &mut Random) -> u16 {
    loop {
        let word = random.below(2048) as u16;
        if !valid(word) {
            return word;
        }
    }
}

/// Draws words for the shaped data of a telegram.
pub fn words(random: &mut Random, format: Format) -> Vec<u16> {
    (0..format.blocks()).map(|_| random_word(random)).collect()
}

/// Draws from few words.
pub fn few_words(random: &mut Random, format: Format, kinds: usize) -> Vec<u16> {
    let kinds: Vec<u16> = (0..kinds).map(|_| random_word(random)).collect();
    (0..format.blocks())
        .map(|_| kinds[random.below(kinds.len())])
        .collect()
}

/// Draws the words of a long telegram.
pub type Draw = fn(&mut Random) -> Vec<u16>;

/// A telegram whose shaped data is drawn and that is accepted, whatever its
/// pair.
pub fn drawn(
    random: &mut Random,
    format: Format,
    draw: impl Fn(&mut Random) -> Vec<u16>,
    accept: impl Fn(&[u8]) -> bool,
) -> Vec<u8> {
    loop {
        let shaped = bits_of_words(&draw(random));
        for b in 16..4096 {
            let telegram = complete(&shaped, b, random.below(1024) as u16, format);
            if accept(&telegram) {
                return telegram;
            }
        }
    }
}

/// A well-formed telegram whose shaped data is drawn, and that `check` refuses
/// with this number, whatever its pair.
pub fn barred(
    random: &mut Random,
    format: Format,
    draw: impl Fn(&mut Random) -> Vec<u16>,
    number: u8,
) -> Vec<u8> {
    drawn(random, format, draw, |telegram| {
        well_formed(telegram, format) && check(telegram) == Err(Refusal::Number(number))
    })
}

/// Shaped data of the long format that makes 31 words of the telegram thinned
/// twice: every second bit of each of 31 pairs of words is a word.
pub fn thinning_words(random: &mut Random) -> Vec<u16> {
    let mut shaped = words(random, Format::Long);
    for pair in shaped[..62].chunks_mut(2) {
        while {
            let second: Vec<u8> = bits_of_words(pair).into_iter().step_by(2).collect();
            !valid(number_of(&second) as u16)
        } {
            pair.fill_with(|| random_word(random));
        }
    }
    shaped
}

/// Shaped data of the long format of which two words stand again 31 words, and
/// so 341 bits, later.
pub fn repeating_words(random: &mut Random) -> Vec<u16> {
    let mut shaped = words(random, Format::Long);
    let at = random.below(50);
    shaped.copy_within(at..at + 2, at + 31);
    shaped
}

/// Bits of a long telegram of which some stand again about a third of the way
/// round, with so many changes.
pub fn repeating_bits(random: &mut Random, changes: usize) -> Vec<u8> {
    let n = Format::Long.telegram_bits();
    let mut bits = random.bits(n);
    let (from, shift) = (random.below(n), 338 + random.below(7));
    for j in 0..8 + random.below(36) {
        bits[(from + shift + j) % n] = bits[(from + j) % n];
    }
    for _ in 0..changes {
        bits[random.below(n)] ^= 1;
    }
    bits
}

/// A proper long telegram, and a turn at which the first and the last 121 bits
/// of a window of 462 differ in 15 places: of eleven words every second stands
/// again 341 bits later, and between them stand words with three other bits.
pub fn fifteen_apart(random: &mut Random) -> (Vec<u8>, usize) {
    let at = 20;
    let telegram = drawn(
        random,
        Format::Long,
        |random| {
            let mut shaped = words(random, Format::Long);
            for i in at..at + 11 {
                let places = if (i - at) % 2 == 0 { 0 } else { 3 };
                let near: Vec<u16> = (0..2048)
                    .filter(|&w| valid(w) && (w ^ shaped[i]).count_ones() == places)
                    .collect();
                // a word without such a neighbour makes a telegram that is dropped
                if !near.is_empty() {
                    shaped[i + 31] = near[random.below(near.len())];
                }
            }
            shaped
        },
        |telegram| {
            let places = distance(
                &telegram[11 * at..][..121],
                &telegram[11 * at + 341..][..121],
            );
            places == 15 && check(telegram).is_ok()
        },
    );
    (telegram, 11 * at)
}
