//! Making the telegram of a block, B and esb without a search (document 02,
//! No. 11; what is said of a word, No. 13).

use crate::bits::all_bits;
use crate::format::Format;
use crate::refusal::{self, Refusal};
use crate::telegram::{self, word_numbers, B_VALUES, ESB_VALUES};

/// Writes the well-formed telegram of a block, B and esb, and gives its format.
/// The refusals are tested in the order 1, 2, 27, 3, 9.
pub fn make(block: &[u8], b: u64, esb: u64, output: &mut [u8]) -> Result<Format, Refusal> {
    let format = Format::of_block(block.len()).ok_or(refusal::LENGTH)?;
    if !all_bits(block) {
        return Err(refusal::NOT_A_BIT);
    }
    if b >= u64::from(B_VALUES) || esb >= u64::from(ESB_VALUES) {
        return Err(refusal::PAIR_TOO_LARGE);
    }
    if output.len() < format.telegram_bits() {
        return Err(refusal::OUTPUT);
    }
    let telegram = telegram::make(block, b as u16, esb as u16, format);
    word_numbers(&telegram)?;
    output[..format.telegram_bits()].copy_from_slice(&telegram);
    Ok(format)
}
