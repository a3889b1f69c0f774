//! The next proper pair of a block at or after a given one, and all of them
//! (document 02, No. 9).

use crate::bits::all_bits;
use crate::conditions::Course;
use crate::format::Format;
use crate::pairs::{pairs_from, pairs_from_skipping, Pair};
use crate::refusal::{self, Refusal};
use crate::telegram::{B_VALUES, ESB_VALUES};

/// What `next` found: a pair, whose telegram it wrote.
#[derive(Clone, Copy, Debug, PartialEq, Eq)]
pub struct Next {
    pub format: Format,
    pub b: u16,
    pub esb: u16,
}

/// The format of a block, or refusal 1 or 2.
fn format_of(block: &[u8]) -> Result<Format, Refusal> {
    let format = Format::of_block(block.len()).ok_or(refusal::LENGTH)?;
    if !all_bits(block) {
        return Err(refusal::NOT_A_BIT);
    }
    Ok(format)
}

/// The refusals, tested in the order 1, 2, 27, 3, then the search from a pair on.
/// Where it finds none, the output is kept.
pub fn next_by(
    block: &[u8],
    b: u64,
    esb: u64,
    output: &mut [u8],
    search: impl FnOnce(Format, (u16, u16)) -> Option<Pair>,
) -> Result<Option<Next>, Refusal> {
    let format = format_of(block)?;
    if b >= u64::from(B_VALUES) || esb >= u64::from(ESB_VALUES) {
        return Err(refusal::PAIR_TOO_LARGE);
    }
    if output.len() < format.telegram_bits() {
        return Err(refusal::OUTPUT);
    }
    let found = search(format, (b as u16, esb as u16));
    Ok(found.map(|Pair { b, esb, telegram }| {
        output[..format.telegram_bits()].copy_from_slice(&telegram);
        Next { format, b, esb }
    }))
}

/// The next proper pair at or after B and esb, its telegram into the output, or
/// none: each pair formed and tested.
pub fn next(block: &[u8], b: u64, esb: u64, output: &mut [u8]) -> Result<Option<Next>, Refusal> {
    next_by(block, b, esb, output, |format, from| {
        pairs_from(block, format, Course::Ring, from).next()
    })
}

/// What `next` does, sooner.
pub fn next_skipping(
    block: &[u8],
    b: u64,
    esb: u64,
    output: &mut [u8],
) -> Result<Option<Next>, Refusal> {
    next_by(block, b, esb, output, |format, from| {
        pairs_from_skipping(block, format, Course::Ring, from).next()
    })
}

/// All proper pairs of a block, in counting order: those of all 4,194,304 pairs,
/// each formed and tested.
pub fn pairs(block: &[u8]) -> Result<impl Iterator<Item = Pair> + '_, Refusal> {
    let format = format_of(block)?;
    Ok(pairs_from(block, format, Course::Ring, (0, 0)))
}

/// What `pairs` gives, sooner.
pub fn pairs_skipping(block: &[u8]) -> Result<impl Iterator<Item = Pair> + '_, Refusal> {
    let format = format_of(block)?;
    Ok(pairs_from_skipping(block, format, Course::Ring, (0, 0)))
}
