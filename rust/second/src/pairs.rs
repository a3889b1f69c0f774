//! The pairs of a block that give a proper telegram, in counting order (document
//! 01, "Search, reading and place"; condition 2 by document 02, No. 5; going on
//! from a pair, No. 9).

use crate::bits::bits_of;
use crate::conditions::{condition_3, condition_4, off_step, Course};
use crate::format::Format;
use crate::telegram::{all_words_valid, complete, shaped_data, B_VALUES, CONTROL, ESB_VALUES};
use crate::words;

/// A pair and its telegram.
#[derive(Clone, Debug, PartialEq, Eq)]
pub struct Pair {
    pub b: u16,
    pub esb: u16,
    pub telegram: Vec<u8>,
}

/// Is a telegram, as `complete` makes it, proper? Its shaped words are entries
/// and its control and check bits right, so the last ten words are left of
/// condition 1.
fn proper(telegram: &[u8], format: Format, course: Course) -> bool {
    all_words_valid(&telegram[format.shaped_bits()..])
        && off_step(telegram, format, course)
        && condition_3(telegram, format)
        && condition_4(telegram)
}

/// The proper pairs with this B and this shaped data, from an esb on: each one
/// formed and tested.
fn with_b(
    shaped: Vec<u8>,
    b: u16,
    from: u16,
    format: Format,
    course: Course,
) -> impl Iterator<Item = Pair> {
    (from..ESB_VALUES).filter_map(move |esb| {
        let telegram = complete(&shaped, b, esb, format);
        proper(&telegram, format, course).then_some(Pair { b, esb, telegram })
    })
}

/// The proper pairs at or after B and esb, of those B that `shape` gives shaped data
/// of. With the B that is given they begin at the esb that is given, with the others
/// at 0.
fn shaped_pairs_from(
    shape: impl Fn(u16) -> Option<Vec<u8>>,
    format: Format,
    course: Course,
    (b, esb): (u16, u16),
) -> impl Iterator<Item = Pair> {
    (b..B_VALUES)
        .filter_map(move |value| Some((value, shape(value)?)))
        .flat_map(move |(value, shaped)| {
            let from = if value == b { esb } else { 0 };
            with_b(shaped, value, from, format, course)
        })
}

/// The proper pairs at or after B and esb: each one formed and tested in the
/// listed order.
pub fn pairs_from(
    user: &[u8],
    format: Format,
    course: Course,
    from: (u16, u16),
) -> impl Iterator<Item = Pair> + '_ {
    shaped_pairs_from(move |b| Some(shaped_data(user, b)), format, course, from)
}

/// The same pairs, found by dropping a B whose own word is not in the table or
/// whose shaped data alone breaks condition 2. The shaped data are a strip,
/// whatever the course: a run within them is one on the strip and on the ring.
pub fn pairs_from_skipping(
    user: &[u8],
    format: Format,
    course: Course,
    from: (u16, u16),
) -> impl Iterator<Item = Pair> + '_ {
    let shape = move |b: u16| {
        let front = [&CONTROL[..], &bits_of(u128::from(b >> 4), 8)].concat();
        let shaped = words::valid(words::of_bits(&front)).then(|| shaped_data(user, b))?;
        off_step(&shaped, format, Course::Strip).then_some(shaped)
    };
    shaped_pairs_from(shape, format, course, from)
}
