//! Reading a window (document 01, "Search, reading and place"; document 02,
//! No. 2; for the extra shaping bits, No. 11; what is said of a word, No. 13).

use crate::bits::{all_bits, bits_of, flip, turn_right};
use crate::conditions::failing_conditions;
use crate::cyclic::{remainder_by_f, remainder_by_g, turn_of_remainder};
use crate::format::Format;
use crate::refusal::{self, Refusal};
use crate::scrambling::{descramble, restore_first};
use crate::telegram::{b_of, control, esb_of, word_numbers, CONTROL};

/// What a window says besides the user bits.
#[derive(Clone, Copy, Debug, PartialEq, Eq)]
pub struct Reading {
    pub format: Format,
    pub b: u16,
    pub turn: usize,
    pub flipped: bool,
    pub esb: u16,
}

/// What is asked of the telegram in a window.
#[derive(Clone, Copy, Debug, PartialEq, Eq)]
pub enum Asked {
    /// That it is proper (document 02, No. 2).
    Proper,
    /// That it is well-formed, as document 01 had it.
    WellFormed,
}

/// Reads a window of a proper telegram and writes its user bits, or gives the
/// refusal with the lowest number that applies.
pub fn read(window: &[u8], output: &mut [u8]) -> Result<Reading, Refusal> {
    answer(window, output, Asked::Proper)
}

/// Reads a window of a well-formed telegram, proper or not (document 02, No. 2:
/// the call for museum boxes).
pub fn read_well_formed(window: &[u8], output: &mut [u8]) -> Result<Reading, Refusal> {
    answer(window, output, Asked::WellFormed)
}

/// The refusals before the bits are looked at, lowest number first, then the
/// reading.
fn answer(window: &[u8], output: &mut [u8], asked: Asked) -> Result<Reading, Refusal> {
    let format = Format::of_window(window.len()).ok_or(refusal::LENGTH)?;
    if !all_bits(window) {
        return Err(refusal::NOT_A_BIT);
    }
    if output.len() < format.user_bits() {
        return Err(refusal::OUTPUT);
    }
    let (reading, user) = read_bits(window, format, asked)?;
    output[..format.user_bits()].copy_from_slice(&user);
    Ok(reading)
}

/// Reads a window of a format's n+r bits, each 0 or 1: refusals 5 to 9, and
/// then 10 to 12 where a proper telegram is asked for.
pub fn read_bits(
    window: &[u8],
    format: Format,
    asked: Asked,
) -> Result<(Reading, Vec<u8>), Refusal> {
    let (turned, extra) = window.split_at(format.telegram_bits());
    if extra != &window[..format.extra_bits()] {
        return Err(refusal::ENDS);
    }
    if remainder_by_g(turned, format) != 0 {
        return Err(refusal::PARITY);
    }
    let remainder = remainder_by_f(turned, format);
    let turn = turn_of_remainder(remainder, format).ok_or(refusal::TURN)?;
    let mut telegram = turn_right(turned, turn);
    let flipped = control(&telegram, format)[0] == 1;
    if flipped {
        telegram = flip(&telegram);
    }
    if control(&telegram, format) != CONTROL {
        return Err(refusal::CONTROL);
    }
    let user = user_bits_of(&telegram, format)?;
    if asked == Asked::Proper {
        if let Some(refusal) = failing_conditions(&telegram, format).next() {
            return Err(refusal);
        }
    }
    let reading = Reading {
        format,
        b: b_of(&telegram, format),
        turn,
        flipped,
        esb: esb_of(&telegram, format),
    };
    Ok((reading, user))
}

/// The user bits that a telegram carries, or refusal 9.
pub fn user_bits_of(telegram: &[u8], format: Format) -> Result<Vec<u8>, Refusal> {
    let replaced = descramble(
        &scrambled_bits_of(telegram, format)?,
        b_of(telegram, format),
    );
    Ok(restore_first(&replaced))
}

/// The scrambled bits of a telegram, or refusal 9. All words are looked up,
/// the last ten too.
pub fn scrambled_bits_of(telegram: &[u8], format: Format) -> Result<Vec<u8>, Refusal> {
    let numbers = word_numbers(telegram)?;
    Ok(numbers[..format.blocks()]
        .iter()
        .flat_map(|&number| bits_of(number.into(), 10))
        .collect())
}
