//! Checking a telegram (document 01, "When the bench says no"; what is said of a
//! word, document 02, No. 13).

use crate::bits::all_bits;
use crate::conditions::failing_conditions;
use crate::cyclic::{remainder_by_f, remainder_by_g, remainder_of_turn};
use crate::format::Format;
use crate::refusal::{self, Refusal};
use crate::telegram::{control, word_numbers, CONTROL};

/// Accepts a proper telegram with its format, or gives the refusal with the
/// lowest number that applies.
pub fn check(telegram: &[u8]) -> Result<Format, Refusal> {
    let format = Format::of_telegram(telegram.len()).ok_or(refusal::LENGTH)?;
    if !all_bits(telegram) {
        return Err(refusal::NOT_A_BIT);
    }
    if remainder_by_g(telegram, format) != 0 {
        return Err(refusal::PARITY);
    }
    if remainder_by_f(telegram, format) != remainder_of_turn(0, format) {
        return Err(refusal::TURN);
    }
    if control(telegram, format) != CONTROL {
        return Err(refusal::CONTROL);
    }
    word_numbers(telegram)?;
    failing_conditions(telegram, format)
        .next()
        .map_or(Ok(format), Err)
}
