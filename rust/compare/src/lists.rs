//! Whole lists of the proper pairs of blocks, by the second program, and what a
//! lister is compared with by them: each answer and every byte of an output between
//! guard bytes (document 02, No. 9).

use crate::calls::next_by;
use second::encode::PAIRS;
use second::format::Format;
use second::next;
use second::pairs::Pair;
use second::random::Random;
use second::{pairs_skipping, Next, Refusal};

/// Gives the next pair of a block at or after B and esb: the library's, or another
/// one in its place.
pub type Lister<'a> =
    &'a dyn Fn(&[u8], u64, u64, &mut [u8]) -> Result<Option<balise::Pair>, balise::Refusal>;

/// B and esb of the pair with this number in counting order; none beyond the last.
pub fn pair_of_number(number: u64) -> Option<(u64, u64)> {
    (number < PAIRS.into()).then_some((number / 1024, number % 1024))
}

/// The number of a pair in counting order.
fn number_of_pair(b: u16, esb: u16) -> u64 {
    1024 * u64::from(b) + u64::from(esb)
}

/// A block, and all its proper pairs in counting order.
pub struct List {
    pub block: Vec<u8>,
    pub format: Format,
    pub pairs: Vec<Pair>,
}

impl List {
    /// The second program's list, by its search that drops scrambling bits.
    pub fn of(block: Vec<u8>) -> List {
        let format = Format::of_block(block.len()).expect("a block");
        let pairs = pairs_skipping(&block).expect("a block of bits").collect();
        List {
            block,
            format,
            pairs,
        }
    }

    /// The pairs that are at or after this one.
    pub fn from(&self, start: (u16, u16)) -> &[Pair] {
        let at = self
            .pairs
            .partition_point(|pair| (pair.b, pair.esb) < start);
        &self.pairs[at..]
    }

    /// What the second program answers, its search taken from the list.
    pub fn next(&self, b: u64, esb: u64, output: &mut [u8]) -> Result<Option<Next>, Refusal> {
        next::next_by(&self.block, b, esb, output, |_, start| {
            self.from(start).first().cloned()
        })
    }

    /// Compares a lister from a start on, lent room for a telegram and some bytes more.
    pub fn compare(
        &self,
        random: &mut Random,
        lister: Lister,
        (b, esb): (u64, u64),
    ) -> Result<Option<Next>, Refusal> {
        let room = self.format.telegram_bits() + random.below(40);
        next_by(
            random,
            |output| lister(&self.block, b, esb, output),
            |output| self.next(b, esb, output),
            room,
        )
        .0
    }

    /// Compares a lister that starts at 0, 0 and goes on just after each answer until
    /// no more is said, or the last pair was the answer: it gives the whole list. How
    /// many calls that took.
    pub fn compare_whole(&self, random: &mut Random, lister: Lister) -> usize {
        let (mut calls, mut found) = (0, 0);
        let mut start = Some((0, 0));
        while let Some(from) = start {
            calls += 1;
            let next = self.compare(random, lister, from).expect("a good start");
            found += usize::from(next.is_some());
            start = next.and_then(|next| pair_of_number(number_of_pair(next.b, next.esb) + 1));
        }
        assert_eq!(found, self.pairs.len());
        calls
    }

    /// Starts at each pair, just before it and just after it, and with esb 0 at its B
    /// and the next; at both ends of all pairs; and so many random ones.
    pub fn starts(&self, random: &mut Random, count: usize) -> Vec<(u64, u64)> {
        let last = u64::from(PAIRS) - 1;
        let mut numbers = vec![0, 1, 1023, 1024, last - 1024, last - 1023, last - 1, last];
        for pair in &self.pairs {
            let number = number_of_pair(pair.b, pair.esb);
            numbers.extend([number - 1, number, number + 1]);
            numbers.extend([number / 1024 * 1024, number / 1024 * 1024 + 1024]);
        }
        numbers.extend((0..count).map(|_| random.below(PAIRS as usize) as u64));
        numbers.into_iter().filter_map(pair_of_number).collect()
    }

    /// Compares a lister from each of these starts on.
    pub fn compare_starts(&self, random: &mut Random, lister: Lister, starts: &[(u64, u64)]) {
        for &start in starts {
            let answer = self.compare(random, lister, start);
            assert!(answer.is_ok());
        }
    }

    /// Compares a lister from starts that are too large: those whose lowest bits are
    /// a pair of the list, just over the limits, and as large as can be.
    pub fn compare_too_large(&self, random: &mut Random, lister: Lister) -> usize {
        let first = self.pairs.first();
        let (b, esb) = first.map_or((0, 0), |pair| (pair.b.into(), pair.esb.into()));
        let mut starts = vec![
            (4096, esb),
            (b, 1024),
            (4096, 1024),
            (4095, 1024),
            (4096, 0),
        ];
        for large in [u64::from(u32::MAX), 1 << 63, u64::MAX, u64::MAX - 1] {
            starts.extend([(large, esb), (b, large), (large, large)]);
        }
        starts.extend((12..64).map(|bit| (b | 1 << bit, esb)));
        starts.extend((10..64).map(|bit| (b, esb | 1 << bit)));
        for &start in &starts {
            let answer = self.compare(random, lister, start);
            assert_eq!(answer, Err(second::refusal::PAIR_TOO_LARGE), "{start:?}");
        }
        starts.len()
    }
}
