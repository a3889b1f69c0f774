//! Telegrams and rings made for the test programs.

use crate::appendices::block_without_a_pair;
use crate::bits::bits_of;
use crate::cyclic::{check_bits, remainder_by_g};
use crate::encode::{encode_skipping, Encoded};
use crate::format::{Format, CHECK_BITS};
use crate::random::Random;
use crate::words::{word, ENTRIES, WORD_BITS};

/// The pair and the telegram of a block that has one.
pub fn encoded(block: &[u8]) -> (Encoded, Vec<u8>) {
    let mut output = vec![0; Format::Long.telegram_bits()];
    let encoded = encode_skipping(block, &mut output).expect("a proper pair");
    output.truncate(encoded.format.telegram_bits());
    (encoded, output)
}

/// The telegram of a block that has a pair.
pub fn telegram_of(block: &[u8]) -> Vec<u8> {
    encoded(block).1
}

/// The telegram of a random block.
pub fn random_telegram(random: &mut Random, format: Format) -> Vec<u8> {
    telegram_of(&random.bits(format.user_bits()))
}

/// The telegrams of some random blocks.
pub fn random_telegrams(random: &mut Random, format: Format, count: usize) -> Vec<Vec<u8>> {
    (0..count)
        .map(|_| random_telegram(random, format))
        .collect()
}

/// The long block without a pair with the bits at a place and ten later exchanged;
/// none where they are equal. The sum of the blocks stays, and so do the scrambled
/// bits before the place: the later it is, the fewer pairs there are.
pub fn with_few_pairs(place: usize) -> Option<Vec<u8>> {
    let mut block = block_without_a_pair();
    block.swap(place, place + 10);
    (block[place] != block[place + 10]).then_some(block)
}

/// Places with which `with_few_pairs` gives a block with exactly a hundred pairs, and
/// with one more.
pub const A_HUNDRED: usize = 654;
pub const ONE_MORE: usize = 638;

/// A telegram with other bits at a place and its check bits put right again.
pub fn with_bits(telegram: &[u8], format: Format, place: usize, bits: &[u8]) -> Vec<u8> {
    let mut other = telegram.to_vec();
    other[place..place + bits.len()].copy_from_slice(bits);
    other.truncate(format.telegram_bits() - CHECK_BITS);
    let check = check_bits(&other, format);
    other.extend(check);
    other
}

/// A telegram with another word, its check bits put right again.
pub fn with_word(telegram: &[u8], format: Format, index: usize, word: u16) -> Vec<u8> {
    let bits = bits_of(word.into(), WORD_BITS);
    with_bits(telegram, format, WORD_BITS * index, &bits)
}

/// Random bits of a telegram's length that g divides.
pub fn divided(random: &mut Random, format: Format) -> Vec<u8> {
    let degree = 75;
    let mut bits = random.bits(format.telegram_bits() - degree);
    bits.extend(vec![0; degree]);
    let rest = remainder_by_g(&bits, format);
    bits.truncate(format.telegram_bits() - degree);
    bits.extend(bits_of(rest, degree));
    bits
}

/// A random word of the table.
pub fn random_word(random: &mut Random) -> u16 {
    word(random.below(ENTRIES) as u16)
}

/// The bits of some words, one after another.
pub fn bits_of_words(words: &[u16]) -> Vec<u8> {
    words
        .iter()
        .flat_map(|&word| bits_of(word.into(), WORD_BITS))
        .collect()
}

/// The bits of some random words of the table.
pub fn valid_words(random: &mut Random, count: usize) -> Vec<u8> {
    let words: Vec<u16> = (0..count).map(|_| random_word(random)).collect();
    bits_of_words(&words)
}

/// A ring of n zeros, whose words are not valid wherever they are cut, with a
/// stretch put at a place.
pub fn with_stretch(n: usize, place: usize, stretch: &[u8]) -> Vec<u8> {
    let mut ring = vec![0; n];
    for (j, &bit) in stretch.iter().enumerate() {
        ring[(place + j) % n] = bit;
    }
    ring
}
