//! Scattered changes: few changed bits, anywhere in a window.

use crate::telegrams::{Kind, Window};
use crate::trial::{changed, random_damage, Damage};
use second::format::Format;
use second::random::Random;
use std::fmt;

/// The most changed bits of a window of this format that are refused, wherever they
/// are.
pub const fn limit(format: Format) -> usize {
    match format {
        Format::Long => 14,
        Format::Short => 16,
    }
}

/// The fewest changed bits of a window of a kind that are refused: a long window cut
/// from a short telegram is refused without any.
pub const fn least(kind: Kind) -> usize {
    match kind {
        Kind::Of(_) => 1,
        Kind::LongOfShort => 0,
    }
}

/// The refusals of which one is proved for windows of a kind.
pub const fn refusals(kind: Kind) -> &'static [u8] {
    match kind {
        Kind::Of(_) => &[5, 6],
        Kind::LongOfShort => &[5, 6, 7],
    }
}

/// The kinds of windows for which something is proved.
pub const KINDS: [Kind; 3] = [
    Kind::Of(Format::Long),
    Kind::Of(Format::Short),
    Kind::LongOfShort,
];

/// The changed places of a window.
#[derive(Clone, Debug, PartialEq, Eq)]
pub struct Scattered {
    /// By rising place.
    places: Vec<usize>,
}

impl Scattered {
    /// Changes at these places, no two of them the same.
    pub fn new(mut places: Vec<usize>) -> Scattered {
        places.sort_unstable();
        assert!(places.windows(2).all(|two| two[0] < two[1]));
        Scattered { places }
    }

    /// Random changes within what is proved for a kind of windows.
    pub fn random(random: &mut Random, kind: Kind) -> Scattered {
        let count = random_count(random, least(kind), limit(kind.window()));
        Scattered::of_count(random, kind.window(), count)
    }

    /// So many random changes of a window of a format.
    pub fn of_count(random: &mut Random, format: Format, count: usize) -> Scattered {
        Scattered::new(random_places(random, format, count))
    }

    /// One change more than the limit, which leaves the ends as they are and which g
    /// divides: refused with neither 5 nor 6.
    pub fn missed(format: Format) -> Scattered {
        let exponents: &[usize] = match format {
            Format::Long => &[
                945, 806, 624, 595, 564, 560, 539, 521, 480, 479, 390, 299, 189, 18, 16,
            ],
            Format::Short => &[
                211, 208, 192, 182, 179, 158, 146, 145, 130, 127, 117, 112, 106, 71, 66, 37, 35,
            ],
        };
        let n = format.telegram_bits();
        Scattered::new(exponents.iter().map(|exponent| n - 1 - exponent).collect())
    }

    /// The changed places, by rising place.
    pub fn places(&self) -> &[usize] {
        &self.places
    }

    /// The places i below r for which i and n + i are both changed.
    pub fn pairs(&self, format: Format) -> usize {
        let partner = |place: &usize| place + format.telegram_bits();
        let paired = |place: &&usize| self.places.contains(&partner(place));
        self.places.iter().filter(paired).count()
    }

    /// Whether the last r bits of a window still repeat the first r: of the places i
    /// and n + i both are changed or none.
    pub fn ends_agree(&self, format: Format) -> bool {
        let (n, r) = (format.telegram_bits(), format.extra_bits());
        let at_the_ends = |place: &&usize| **place < r || **place >= n;
        self.places.iter().filter(at_the_ends).count() == 2 * self.pairs(format)
    }
}

impl Damage for Scattered {
    fn damaged(&self, window: &Window) -> Vec<u8> {
        changed(window, self.places.iter().copied())
    }

    /// 5 where the ends differ; otherwise 6; of a long window cut from a short
    /// telegram without changes 7.
    fn refusal(&self, window: &Window) -> Option<u8> {
        let format = window.format();
        let of_its_format = window.telegram.format == format;
        match self.places.len() {
            count if count > limit(format) => None,
            _ if !self.ends_agree(format) => Some(5),
            0 => (!of_its_format).then_some(7),
            _ => Some(6),
        }
    }
}

/// The changed places, counted from 0.
impl fmt::Display for Scattered {
    fn fmt(&self, f: &mut fmt::Formatter) -> fmt::Result {
        write!(f, "changed at {} places:", self.places.len())?;
        self.places
            .iter()
            .try_for_each(|place| write!(f, " {place}"))
    }
}

/// From the least number to the most: the least, 1 and the most an eighth of the time
/// each, and otherwise any of them.
fn random_count(random: &mut Random, least: usize, most: usize) -> usize {
    match random.below(8) {
        0 => least,
        1 => 1,
        2 => most,
        _ => least + random.below(most - least + 1),
    }
}

/// So many places: anywhere, near each other, in one of the ends, in both of them and
/// between so that the ends agree or just do not, each as often.
fn random_places(random: &mut Random, format: Format, count: usize) -> Vec<usize> {
    let (n, r) = (format.telegram_bits(), format.extra_bits());
    match random.below(6) {
        0 => within(random, 0, n + r, count),
        1 => near_each_other(random, n + r, count),
        2 => {
            let end = [0, n][random.below(2)];
            within(random, end, r, count)
        }
        3 => {
            let pairs = random.below(count / 2 + 1);
            agreeing(random, format, pairs, count - 2 * pairs)
        }
        4 => agreeing(random, format, count / 2, count % 2),
        _ => almost_agreeing(random, format, count),
    }
}

/// Places out of so many from a place on.
fn within(random: &mut Random, from: usize, span: usize, count: usize) -> Vec<usize> {
    let places = random.places(count, span);
    places.into_iter().map(|place| from + place).collect()
}

/// Places that lie within few more than they are.
fn near_each_other(random: &mut Random, length: usize, count: usize) -> Vec<usize> {
    let span = count + random.below(3 * count + 1);
    let from = random.below(length - span + 1);
    within(random, from, span, count)
}

/// Pairs of places i and n + i, and others between the ends.
fn agreeing(random: &mut Random, format: Format, pairs: usize, between: usize) -> Vec<usize> {
    let (n, r) = (format.telegram_bits(), format.extra_bits());
    let first = within(random, 0, r, pairs);
    let mut places = within(random, r, n - r, between);
    places.extend(first.iter().flat_map(|place| [*place, n + place]));
    places
}

/// Places of which one alone would have to be changed too for the ends to agree.
fn almost_agreeing(random: &mut Random, format: Format, count: usize) -> Vec<usize> {
    if count == 0 {
        return Vec::new();
    }
    let pairs = 1 + random.below(count.div_ceil(2));
    let mut places = agreeing(random, format, pairs, count + 1 - 2 * pairs);
    // the pairs stand last
    let left_out = places.len() - 1 - random.below(2);
    places.remove(left_out);
    places
}

/// So many random windows of a kind, and random changes for each.
pub fn random_scattered(
    kind: Kind,
    count: usize,
    seed: u64,
    each: impl FnMut(&Window, &Scattered),
) {
    let draw = |random: &mut Random, _: &Window| Scattered::random(random, kind);
    random_damage(kind, count, seed, draw, each);
}
