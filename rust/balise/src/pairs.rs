//! All pairs of a block that give a proper telegram, in counting order (document 02,
//! No. 9).

use std::iter::FusedIterator;

use crate::{next, Format, Refusal, MAX_TELEGRAM_BITS};

/// The last B and the last esb.
const LAST_B: u16 = 4095;
const LAST_ESB: u16 = 1023;

/// A pair that gives a proper telegram of a block of this format.
#[derive(Clone, Copy, Debug, PartialEq, Eq, Hash)]
pub struct Pair {
    pub format: Format,
    /// The scrambling bits.
    pub b: u16,
    /// The extra shaping bits.
    pub esb: u16,
}

impl Pair {
    /// B and esb of the pair just after it in counting order, where a listing goes on;
    /// none after 4095, 1023.
    pub fn after(self) -> Option<(u64, u64)> {
        let (b, esb) = (u64::from(self.b), u64::from(self.esb));
        match (self.b, self.esb) {
            (LAST_B.., LAST_ESB..) => None,
            (_, LAST_ESB..) => Some((b + 1, 0)),
            _ => Some((b, esb + 1)),
        }
    }
}

/// A pair and its telegram.
#[derive(Clone, Debug, PartialEq, Eq, Hash)]
pub struct Choice {
    pub pair: Pair,
    /// The telegram's bits, [`Format::telegram_bits`].
    pub telegram: Vec<u8>,
}

/// The first choice at or after a pair.
fn choice_from(block: &[u8], b: u64, esb: u64) -> Result<Option<Choice>, Refusal> {
    let mut output = [0; MAX_TELEGRAM_BITS];
    let pair = next(block, b, esb, &mut output)?;
    Ok(pair.map(|pair| Choice {
        pair,
        telegram: output[..pair.format.telegram_bits()].to_vec(),
    }))
}

/// The choices for a block, in counting order: [`pairs`] and [`pairs_from`] give it.
#[derive(Clone, Debug)]
pub struct Pairs<'a> {
    block: &'a [u8],
    /// What the first call found, until it is given.
    first: Option<Choice>,
    /// Where the next call begins; none where no more was said, and after the last
    /// pair.
    from: Option<(u64, u64)>,
}

impl Iterator for Pairs<'_> {
    type Item = Choice;

    fn next(&mut self) -> Option<Choice> {
        if self.first.is_some() {
            return self.first.take();
        }
        let (b, esb) = self.from.take()?;
        // the first call took the same block, and no pair after another is too large:
        // nothing is refused
        let choice = choice_from(self.block, b, esb).ok().flatten()?;
        self.from = choice.pair.after();
        Some(choice)
    }
}

impl FusedIterator for Pairs<'_> {}

/// Every pair with which a block of [`Format::user_bits`], 830 or 210, gives a proper
/// telegram, each once and in counting order, with its telegram. A random block has
/// some hundreds. A pair is searched for when it is asked for, but for the first.
///
/// Refuses with `Length` and `NotBit`.
pub fn pairs(block: &[u8]) -> Result<Pairs<'_>, Refusal> {
    pairs_from(block, 0, 0)
}

/// Those of [`pairs`] that are at or after the pair `b`, `esb`.
///
/// Refuses with `Length`, `NotBit`, and `PairTooLarge` where `b` is over 4095 or `esb`
/// over 1023.
pub fn pairs_from(block: &[u8], b: u64, esb: u64) -> Result<Pairs<'_>, Refusal> {
    let first = choice_from(block, b, esb)?;
    let from = first.as_ref().and_then(|choice| choice.pair.after());
    Ok(Pairs { block, first, from })
}

#[cfg(test)]
mod tests {
    use super::{Format, Pair};

    /// Each pair of the counting order is just after the one before it.
    #[test]
    fn after() {
        let pair = |number: u64| Pair {
            format: Format::Long,
            b: (number / 1024) as u16,
            esb: (number % 1024) as u16,
        };
        for number in 0..4_194_303 {
            let after = pair(number).after().map(|(b, esb)| 1024 * b + esb);
            assert_eq!(after, Some(number + 1));
        }
        assert_eq!(pair(4_194_303).after(), None);
    }
}
