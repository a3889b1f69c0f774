//! Sets of 64 words of the table that five linear equations single out of all
//! words: affine subspaces of dimension 6. None of dimension 7 was found.

use crate::equations::{equation, Bits};
use second::made::random_word;
use second::random::Random;
use second::words::{valid, WORD_BITS};

const WORDS: usize = 64;

/// Bits of a word that are added, and what they add up to.
type Sum = (u16, bool);

/// An affine subspace within the table, by its equations.
#[derive(Clone, Debug)]
pub struct Subspace(Vec<Sum>);

/// Is the number of ones in a word odd?
fn odd(word: u16) -> bool {
    word.count_ones() % 2 == 1
}

/// Words of the table closed under the sum of three: from a word on, each time all
/// of them again in one more direction that does not lead out of the table. Fewer
/// than wanted where there is no such direction.
fn closed_words(random: &mut Random) -> Vec<u16> {
    let mut words = vec![random_word(random)];
    let mut directions: Vec<u16> = (1..2048).collect();
    while words.len() < WORDS {
        directions.retain(|direction| {
            words.iter().all(|word| valid(word ^ direction))
                && !words.contains(&(words[0] ^ direction))
        });
        if directions.is_empty() {
            break;
        }
        let direction = directions[random.below(directions.len())];
        words.extend_from_within(..);
        let half = words.len() / 2;
        words[half..].iter_mut().for_each(|word| *word ^= direction);
    }
    words
}

impl Subspace {
    /// Draws one.
    pub fn random(random: &mut Random) -> Subspace {
        loop {
            let words = closed_words(random);
            if words.len() == WORDS {
                return Subspace::of_words(&words);
            }
        }
    }

    /// The equations of the subspace that these words are: sums that are the
    /// same for all of them, none the sum of others.
    fn of_words(words: &[u16]) -> Subspace {
        let (mut sums, mut spanned) = (Vec::new(), vec![0]);
        for added in 1..2048 {
            let sum = odd(words[0] & added);
            let same = words.iter().all(|word| odd(word & added) == sum);
            if same && !spanned.contains(&added) {
                spanned.extend(spanned.clone().iter().map(|earlier| earlier ^ added));
                sums.push((added, sum));
            }
        }
        Subspace(sums)
    }

    /// The equations that the word at these places of a telegram is one of the
    /// subspace's.
    pub fn equations(&self, places: &[usize; WORD_BITS]) -> Vec<Bits> {
        let equation = |&(added, sum): &Sum| {
            let added = (0..WORD_BITS).filter(|i| added >> (WORD_BITS - 1 - i) & 1 == 1);
            equation(added.map(|i| places[i]), sum)
        };
        self.0.iter().map(equation).collect()
    }
}
