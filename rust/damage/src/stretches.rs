//! Telegrams with a long stretch that repeats itself after few bits. Where as many
//! bits slip within such a stretch at an edge of a window, the window is one without
//! damage, at another turn.

use crate::slips::{after, before, Slip};
use crate::telegrams::{Telegram, Window};
use second::bits::{bits_of, text};
use second::check;
use second::format::Format;
use second::made::{bits_of_words, random_word};
use second::random::Random;
use second::telegram::{complete, well_formed, B_VALUES, ESB_VALUES};
use second::words::{table, valid, WORD_BITS};

/// The most whole words of a stretch, which are enough for the ends of a window: no
/// longer one is looked for.
const WHOLE_WORDS: usize = 14;

/// Telegrams that are made with a stretch.
const MADE: usize = 20;

/// Patterns that are drawn where there are too many to try all.
const DRAWN: usize = 20;

/// Words of the table of which some neighbouring bits have a period: the last bits of
/// the first word, whole words, and the first bits of the last.
#[derive(Clone, Debug, PartialEq, Eq)]
pub struct Stretch {
    pub period: usize,
    pub words: Vec<u16>,
    /// The bits of the words before the stretch.
    pub from: usize,
    pub length: usize,
}

impl Stretch {
    /// The longest stretches with a period; of those that repeat whole words, some.
    pub fn longest(random: &mut Random, period: usize) -> Vec<Stretch> {
        let patterns = patterns(random, period);
        let mut stretches: Vec<Stretch> = patterns
            .iter()
            .map(|pattern| Stretch::of(random, pattern))
            .collect();
        let longest = stretches.iter().map(|stretch| stretch.length).max();
        stretches.retain(|stretch| Some(stretch.length) == longest);
        stretches
    }

    /// The longest stretch that repeats this pattern, its first whole word beginning
    /// with it.
    fn of(random: &mut Random, pattern: &[u8]) -> Stretch {
        let whole: Vec<u16> = (0..WHOLE_WORDS)
            .map(|i| repeated(pattern, WORD_BITS * i, WORD_BITS))
            .take_while(|&word| valid(word))
            .collect();
        let bits = WORD_BITS * whole.len();
        // a multiple of the period, to count from for the bits before the pattern
        let round = WORD_BITS * pattern.len();
        let (last, of_first) = longest_part(
            random,
            |length| repeated(pattern, round - length, length),
            |word, length| word & ((1 << length) - 1),
        );
        let (first, of_last) = longest_part(
            random,
            |length| repeated(pattern, bits, length),
            |word, length| word >> (WORD_BITS - length),
        );
        Stretch {
            period: pattern.len(),
            words: [&[last][..], &whole, &[first]].concat(),
            from: WORD_BITS - of_first,
            length: of_first + bits + of_last,
        }
    }
}

/// Patterns of so many bits to look for: all, or of whole words some.
fn patterns(random: &mut Random, period: usize) -> Vec<Vec<u8>> {
    if !period.is_multiple_of(WORD_BITS) {
        return (0..1 << period).map(|p| bits_of(p, period)).collect();
    }
    let mut words = || -> Vec<u16> {
        let count = period / WORD_BITS;
        (0..count).map(|_| random_word(random)).collect()
    };
    (0..DRAWN).map(|_| bits_of_words(&words())).collect()
}

/// The number with so many bits of a repeated pattern, from one on.
fn repeated(pattern: &[u8], from: usize, length: usize) -> u16 {
    let bits = pattern.iter().cycle().skip(from % pattern.len());
    bits.take(length)
        .fold(0, |number, &bit| 2 * number + u16::from(bit))
}

/// A word of the table with the longest part, shorter than the word, that is as
/// wanted, and the length of the part. The part of a word with a length, and the one
/// that is wanted, are numbers.
fn longest_part(
    random: &mut Random,
    wanted: impl Fn(usize) -> u16,
    part: impl Fn(u16, usize) -> u16,
) -> (u16, usize) {
    let words = |length| -> Vec<u16> {
        let (wanted, words) = (wanted(length), table().iter().copied());
        words.filter(|&word| part(word, length) == wanted).collect()
    };
    let (words, length) = (0..WORD_BITS)
        .rev()
        .map(|length| (words(length), length))
        .find(|(words, _)| !words.is_empty())
        .expect("a part of no bits");
    (words[random.below(words.len())], length)
}

/// A well-formed telegram with a stretch.
#[derive(Clone, Debug)]
pub struct Stretched {
    pub telegram: Telegram,
    /// The bits of the telegram before the stretch.
    pub from: usize,
    pub length: usize,
    pub period: usize,
}

impl Stretched {
    /// Some telegrams with longest stretches of a period.
    pub fn some(random: &mut Random, format: Format, period: usize) -> Vec<Stretched> {
        let stretches = Stretch::longest(random, period);
        (0..MADE)
            .map(|_| {
                let stretch = &stretches[random.below(stretches.len())];
                Stretched::new(random, format, stretch)
            })
            .collect()
    }

    /// A telegram with a stretch anywhere in its shaped data, the other words random.
    pub fn new(random: &mut Random, format: Format, stretch: &Stretch) -> Stretched {
        let mut words: Vec<u16> = (0..format.blocks()).map(|_| random_word(random)).collect();
        let at = random.below(words.len() - stretch.words.len() + 1);
        words[at..at + stretch.words.len()].copy_from_slice(&stretch.words);
        let bits = completed(random, &bits_of_words(&words), format);
        let name = format!("the telegram {}", text(&bits));
        let proper = check(&bits).is_ok();
        Stretched {
            telegram: Telegram::new(bits, name, proper),
            from: WORD_BITS * at + stretch.from,
            length: stretch.length,
            period: stretch.period,
        }
    }

    /// A window, upright or flipped, and a slip of as many bits as the period, `near`
    /// bits from an edge, the slipped ones counted in. These bits lie in the stretch,
    /// as far as it is so long. What is put in goes on as the stretch does.
    pub fn slip(&self, random: &mut Random, near: usize) -> (Window<'_>, Slip) {
        let (telegram, many) = (&self.telegram, self.period);
        let (n, length) = (telegram.bits.len(), telegram.format.window_bits());
        let spare = random.below(self.length.saturating_sub(near) + 1);
        let first = self.from + spare;
        let end = self.from + self.length - spare + 2 * n;
        let [at_the_front, lost, flipped] = [(); 3].map(|()| random.below(2) == 0);
        let turn = match (at_the_front, lost) {
            (true, true) => first,
            (true, false) => first + many,
            (false, true) => end - length - many,
            (false, false) => end - length,
        };
        let window = Window::new(telegram, turn % n, flipped);
        let slip = match (at_the_front, lost) {
            (true, true) => Slip::lost(near - many, many),
            (false, true) => Slip::lost(length + many - near, many),
            (true, false) => {
                let place = near - many;
                Slip::put_in(place, before(&window, many, place))
            }
            (false, false) => {
                let place = length - near;
                Slip::put_in(place, after(&window, many, place))
            }
        };
        (window, slip)
    }
}

/// A well-formed telegram with this shaped data: pairs are drawn until one is.
fn completed(random: &mut Random, shaped: &[u8], format: Format) -> Vec<u8> {
    loop {
        let b = random.below(B_VALUES.into()) as u16;
        let esb = random.below(ESB_VALUES.into()) as u16;
        let telegram = complete(shaped, b, esb, format);
        if well_formed(&telegram, format) {
            return telegram;
        }
    }
}
