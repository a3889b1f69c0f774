//! Telegrams with right control and check bits of which some words are not in
//! the table, made for the test programs (document 02, No. 13).

use crate::encode::PAIRS;
use crate::format::{Format, FORMATS};
use crate::made::{bits_of_words, random_word};
use crate::random::Random;
use crate::read::scrambled_bits_of;
use crate::refusal::Refusal;
use crate::scrambling::{descramble, restore_first};
use crate::telegram::{b_of, complete, esb_of, B_VALUES, ESB_VALUES};
use crate::words::{self, wrong, Kind, KINDS, WORD_BITS};
use std::collections::BTreeSet;

/// A word that is not in the table: its index, and what is wrong with it.
pub type BadWord = (usize, Kind);

/// A telegram of which just these words, at least one, are not in the table.
#[derive(Clone, Debug)]
pub struct BadTelegram {
    pub format: Format,
    pub bits: Vec<u8>,
    /// By rising index.
    pub bad: Vec<BadWord>,
}

impl BadTelegram {
    /// What the calls are to answer: refusal 9 with the first bad word.
    pub fn refusal(&self) -> Refusal {
        let (index, kind) = self.bad[0];
        Refusal::Word { kind, index }
    }

    /// The block, B and esb that it is made of, where the words of the shaped
    /// data are in the table.
    pub fn made_of(&self) -> Option<(Vec<u8>, u16, u16)> {
        // the last ten words are left out
        let shaped = &self.bits[..self.format.shaped_bits()];
        let scrambled = scrambled_bits_of(shaped, self.format).ok()?;
        let (b, esb) = (
            b_of(&self.bits, self.format),
            esb_of(&self.bits, self.format),
        );
        Some((restore_first(&descramble(&scrambled, b)), b, esb))
    }
}

/// The words of a telegram that are not in the table.
pub fn bad_words(telegram: &[u8]) -> Vec<BadWord> {
    let words = telegram.chunks_exact(WORD_BITS).map(words::of_bits);
    words
        .enumerate()
        .filter_map(|(index, word)| Some((index, wrong(word)?)))
        .collect()
}

/// Words of every kind at every index of a format from this one on.
pub fn every_word(format: Format, first: usize) -> BTreeSet<BadWord> {
    (first..format.words())
        .flat_map(|index| KINDS.map(|kind| (index, kind)))
        .collect()
}

/// A word of a kind.
pub fn word_of_kind(random: &mut Random, kind: Kind) -> u16 {
    let all: Vec<u16> = (0..2048).filter(|&w| wrong(w) == Some(kind)).collect();
    all[random.below(all.len())]
}

/// The words that are to be bad: for each index and each kind this word alone,
/// and with it one or two later ones, as far as there are so many, of the other
/// kinds in each order. Every kind can be had at every index: the word after the
/// shaped data begins with 001, and so do words of all three.
pub fn wanted(random: &mut Random, format: Format) -> Vec<Vec<BadWord>> {
    let mut wanted = Vec::new();
    for index in 0..format.words() {
        let after = format.words() - index - 1;
        for (at, kind) in KINDS.into_iter().enumerate() {
            let [one, other] = [1, 2].map(|turn| KINDS[(at + turn) % 3]);
            let later = [&[][..], &[one], &[other], &[one, other], &[other, one]];
            for later in later.into_iter().filter(|later| later.len() <= after) {
                let mut places = random.places(later.len(), after);
                places.sort_unstable();
                let later = places.iter().zip(later);
                let mut bad = vec![(index, kind)];
                bad.extend(later.map(|(place, &kind)| (index + 1 + place, kind)));
                wanted.push(bad);
            }
        }
    }
    wanted
}

/// A telegram for each of these lists.
pub fn bad_telegrams(random: &mut Random) -> Vec<BadTelegram> {
    let mut telegrams = Vec::new();
    for format in FORMATS {
        let pairs = Pairs::new(format);
        for bad in wanted(random, format) {
            let bits = pairs.telegram(random, &bad);
            telegrams.push(BadTelegram { format, bits, bad });
        }
    }
    telegrams
}

/// The last ten words of a telegram.
const LAST: usize = 10;

/// The last ten words as one number.
fn last_words(telegram: &[u8], format: Format) -> u128 {
    let last = &telegram[format.shaped_bits()..];
    last.iter().fold(0, |sum, &bit| sum << 1 | u128::from(bit))
}

/// What each B, and each esb, adds to the last ten words, whatever the shaped
/// data: the check bits of a sum are the sum of the check bits, but for the g.
pub struct Pairs {
    format: Format,
    of_b: Vec<u128>,
    of_esb: Vec<u128>,
}

impl Pairs {
    pub fn new(format: Format) -> Pairs {
        let zeros = vec![0; format.shaped_bits()];
        let last = |b, esb| last_words(&complete(&zeros, b, esb, format), format);
        let first = last(0, 0);
        Pairs {
            format,
            of_b: (0..B_VALUES).map(|b| last(b, 0) ^ first).collect(),
            of_esb: (0..ESB_VALUES).map(|esb| last(0, esb) ^ first).collect(),
        }
    }

    /// A telegram of which just these words are not in the table.
    pub fn telegram(&self, random: &mut Random, bad: &[BadWord]) -> Vec<u8> {
        let kind_at = |at: usize| {
            let found = bad.iter().find(|&&(index, _)| index == at);
            found.map(|&(_, kind)| kind)
        };
        let blocks = self.format.blocks();
        let last = std::array::from_fn(|at| kind_at(blocks + at));
        loop {
            let shaped: Vec<u16> = (0..blocks)
                .map(|at| match kind_at(at) {
                    Some(kind) => word_of_kind(random, kind),
                    None => random_word(random),
                })
                .collect();
            let first = random.below(PAIRS as usize);
            if let Some(telegram) = self.completed(&bits_of_words(&shaped), first, last) {
                assert_eq!(bad_words(&telegram), bad);
                return telegram;
            }
        }
    }

    /// The telegram of this shaped data with the first pair, going round from
    /// this one on, that leaves the last ten words as wanted: in the table, or of
    /// a kind.
    fn completed(
        &self,
        shaped: &[u8],
        first: usize,
        wanted: [Option<Kind>; LAST],
    ) -> Option<Vec<u8>> {
        let without = last_words(&complete(shaped, 0, 0, self.format), self.format);
        let as_wanted = |b: usize, esb: usize| {
            let last = without ^ self.of_b[b] ^ self.of_esb[esb];
            let word = |at: usize| (last >> (WORD_BITS * (LAST - 1 - at))) as u16 & 2047;
            (0..LAST).all(|at| wrong(word(at)) == wanted[at])
        };
        let pairs = (0..PAIRS as usize).map(|step| (first + step) % PAIRS as usize);
        let (b, esb) = pairs
            .map(|pair| (pair / 1024, pair % 1024))
            .find(|&(b, esb)| as_wanted(b, esb))?;
        Some(complete(shaped, b as u16, esb as u16, self.format))
    }
}
