//! A telegram from block, B and esb, its fields, and what makes it
//! well-formed (document 01, "The telegram, left to right").

use crate::bits::{bits_of, flip, number_of};
use crate::cyclic::check_bits;
use crate::format::{Format, CHECK_BITS};
use crate::refusal::Refusal;
use crate::scrambling::{replace_first, scramble};
use crate::words::{self, valid, WORD_BITS};

/// The control bits b109, b108, b107.
pub const CONTROL: [u8; 3] = [0, 0, 1];

/// The values of B: 0 to 4095.
pub const B_VALUES: u16 = 4096;

/// The values of esb: 0 to 1023.
pub const ESB_VALUES: u16 = 1024;

/// The shaped data of a block scrambled by B.
pub fn shaped_data(user: &[u8], b: u16) -> Vec<u8> {
    scramble(&replace_first(user), b)
        .chunks(10)
        .flat_map(|ten| bits_of(words::word(number_of(ten) as u16).into(), WORD_BITS))
        .collect()
}

/// The telegram of this shaped data, B and esb.
pub fn complete(shaped: &[u8], b: u16, esb: u16, format: Format) -> Vec<u8> {
    let mut telegram = Vec::with_capacity(format.telegram_bits());
    telegram.extend_from_slice(shaped);
    telegram.extend_from_slice(&CONTROL);
    telegram.extend_from_slice(&bits_of(b.into(), 12));
    telegram.extend_from_slice(&bits_of(esb.into(), 10));
    let check = check_bits(&telegram, format);
    telegram.extend_from_slice(&check);
    telegram
}

/// The telegram of a user block, B and esb.
pub fn make(user: &[u8], b: u16, esb: u16, format: Format) -> Vec<u8> {
    complete(&shaped_data(user, b), b, esb, format)
}

/// The control bits of a telegram.
pub fn control(telegram: &[u8], format: Format) -> &[u8] {
    let at = format.shaped_bits();
    &telegram[at..at + 3]
}

/// The scrambling bits of a telegram as the number B.
pub fn b_of(telegram: &[u8], format: Format) -> u16 {
    let at = format.shaped_bits() + 3;
    number_of(&telegram[at..at + 12]) as u16
}

/// The extra shaping bits of a telegram as a number.
pub fn esb_of(telegram: &[u8], format: Format) -> u16 {
    let at = format.shaped_bits() + 15;
    number_of(&telegram[at..at + 10]) as u16
}

/// The numbers of all words of a telegram, the last ten too, or refusal 9 with
/// the first that is not in the table.
pub fn word_numbers(telegram: &[u8]) -> Result<Vec<u16>, Refusal> {
    let mut numbers = Vec::new();
    for (index, bits) in telegram.chunks_exact(WORD_BITS).enumerate() {
        match words::look_up(words::of_bits(bits)) {
            Ok(number) => numbers.push(number),
            Err(kind) => return Err(Refusal::Word { kind, index }),
        }
    }
    Ok(numbers)
}

/// Are all words of these bits, cut from their front, in the table?
pub fn all_words_valid(bits: &[u8]) -> bool {
    bits.chunks_exact(WORD_BITS)
        .all(|word| valid(words::of_bits(word)))
}

/// Condition 1: control 0, 0, 1, all words in the table, the check bits right.
pub fn well_formed(telegram: &[u8], format: Format) -> bool {
    let (head, check) = telegram.split_at(format.telegram_bits() - CHECK_BITS);
    control(telegram, format) == CONTROL
        && all_words_valid(telegram)
        && check_bits(head, format) == check
}

/// The window of this length cut at a turn from a telegram going round:
/// at j it has the bit b(n-1-turn-j), flipped if asked.
pub fn cut(telegram: &[u8], turn: usize, length: usize, flipped: bool) -> Vec<u8> {
    let window: Vec<u8> = (0..length)
        .map(|j| telegram[(turn + j) % telegram.len()])
        .collect();
    if flipped {
        flip(&window)
    } else {
        window
    }
}
