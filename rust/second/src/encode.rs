//! Encoding a user block (document 01, "Search, reading and place"; condition 2
//! by document 02, No. 5).

use crate::bits::all_bits;
use crate::conditions::Course;
use crate::format::Format;
use crate::pairs::{pairs_from, pairs_from_skipping, Pair};
use crate::refusal::{self, Refusal};

/// The count of all pairs, that of refusal 4.
pub const PAIRS: u32 = 4_194_304;

/// What the encoder found: the first pair, and the pairs tried up to it.
#[derive(Clone, Copy, Debug, PartialEq, Eq)]
pub struct Encoded {
    pub format: Format,
    pub b: u16,
    pub esb: u16,
    pub count: u32,
}

/// The first proper pair: each one formed and tested in the listed order.
pub fn first_pair(user: &[u8], format: Format, course: Course) -> Option<Pair> {
    pairs_from(user, format, course, (0, 0)).next()
}

/// The same pair, found sooner.
pub fn first_pair_skipping(user: &[u8], format: Format, course: Course) -> Option<Pair> {
    pairs_from_skipping(user, format, course, (0, 0)).next()
}

/// The refusals before the search, lowest number first, then the search.
fn answer(
    input: &[u8],
    output: &mut [u8],
    search: fn(&[u8], Format, Course) -> Option<Pair>,
) -> Result<Encoded, Refusal> {
    let format = Format::of_block(input.len()).ok_or(refusal::LENGTH)?;
    if !all_bits(input) {
        return Err(refusal::NOT_A_BIT);
    }
    if output.len() < format.telegram_bits() {
        return Err(refusal::OUTPUT);
    }
    let none = Refusal::NoPair { tried: PAIRS };
    let pair = search(input, format, Course::Ring).ok_or(none)?;
    output[..format.telegram_bits()].copy_from_slice(&pair.telegram);
    Ok(Encoded {
        format,
        b: pair.b,
        esb: pair.esb,
        count: 1024 * u32::from(pair.b) + u32::from(pair.esb) + 1,
    })
}

/// Encodes a block: the first proper pair's telegram into the output.
pub fn encode(input: &[u8], output: &mut [u8]) -> Result<Encoded, Refusal> {
    answer(input, output, first_pair)
}

/// What `encode` does, sooner.
pub fn encode_skipping(input: &[u8], output: &mut [u8]) -> Result<Encoded, Refusal> {
    answer(input, output, first_pair_skipping)
}
