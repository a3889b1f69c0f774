//! Captures of many kinds made for the test programs: with windows that are read, at
//! places of all kinds, with windows that are refused, and with many that a search
//! must look at.
//!
//! The pair of a format at j is the bits at j and j+n. The ends of a window agree where
//! the r pairs from its place on do. A run is of pairs that agree, one after the other,
//! as far as they go.

use crate::appendices::{only_the_ring_refuses, well_formed_not_proper};
use crate::bad_words::word_of_kind;
use crate::conditions::{failing_conditions, off_step, Course};
use crate::format::{Format, FORMATS};
use crate::made::{divided, random_telegram, random_telegrams};
use crate::made::{valid_words, with_bits, with_word};
use crate::random::Random;
use crate::telegram::{all_words_valid, complete, cut, B_VALUES, ESB_VALUES};
use crate::words::{KINDS, WORD_BITS};
use crate::{check, refusal};

/// Proper telegrams of each format, and pairs of telegrams with words in common.
const TELEGRAMS: usize = 8;
const JOINED: usize = 4;

/// The control bits that are 0, 0, 1 neither way up.
const OTHER_CONTROL: [[u8; 3]; 6] = [
    [0, 0, 0],
    [0, 1, 0],
    [0, 1, 1],
    [1, 0, 0],
    [1, 0, 1],
    [1, 1, 1],
];

/// Rings of n bits of a format that captures are made of.
struct Rings {
    /// Proper telegrams.
    proper: Vec<Vec<u8>>,
    /// Telegrams whose control bits are wrong, and the check bits right.
    other_control: Vec<Vec<u8>>,
    /// Well-formed telegrams that condition 4 alone bars.
    thinned: Vec<Vec<u8>>,
    /// Rings whose windows are refused with each number from 6 to 12 that there is.
    refused: Vec<Vec<u8>>,
}

impl Rings {
    fn new(random: &mut Random, format: Format) -> Rings {
        let proper = random_telegrams(random, format, TELEGRAMS);
        let other_control = OTHER_CONTROL.iter().zip(&proper);
        let other_control: Vec<Vec<u8>> = other_control
            .map(|(bits, telegram)| with_bits(telegram, format, format.shaped_bits(), bits))
            .collect();
        let mut not_proper = [well_formed_not_proper(), only_the_ring_refuses()].concat();
        not_proper.retain(|telegram| telegram.len() == format.telegram_bits());
        let thinned = not_proper
            .iter()
            .filter(|telegram| failing_conditions(telegram, format).eq([refusal::THINNED]));
        let thinned = thinned.cloned().collect();
        let mut refused = not_proper;
        refused.extend(other_control.clone());
        for kind in KINDS {
            let (index, word) = (random.below(format.blocks()), word_of_kind(random, kind));
            let telegram = any(random, &proper);
            refused.push(with_word(telegram, format, index, word));
        }
        // g divides the sum of two telegrams, and f too: no turn has remainder 0
        for telegrams in proper.windows(2) {
            let sum = telegrams[0].iter().zip(&telegrams[1]).map(|(a, b)| a ^ b);
            refused.push(sum.collect());
        }
        refused.extend((0..8).map(|_| divided(random, format)));
        refused.extend((0..4).map(|_| random.bits(format.telegram_bits())));
        Rings {
            proper,
            other_control,
            thinned,
            refused,
        }
    }
}

/// Words that a short telegram, going round, and a long one have in common. With one
/// more, two words of the long one would stand again 341 bits later, which condition 3
/// bars. For the same reason there are no places close to each other at which a short
/// window and a long one are both read.
const IN_COMMON: usize = 32;

/// A short telegram and a long one, both proper, with words in common: the indices of
/// the first of them in either.
struct Joined {
    short: Vec<u8>,
    long: Vec<u8>,
    in_short: usize,
    in_long: usize,
}

impl Joined {
    fn new(random: &mut Random) -> Joined {
        let format = Format::Long;
        let short = random_telegram(random, Format::Short);
        let in_short = random.below(Format::Short.words());
        let common = cut(&short, WORD_BITS * in_short, WORD_BITS * IN_COMMON, false);
        loop {
            let in_long = random.below(format.blocks() - IN_COMMON + 1);
            let front = valid_words(random, in_long);
            let back = valid_words(random, format.blocks() - IN_COMMON - in_long);
            let shaped = [&front[..], &common, &back].concat();
            if !off_step(&shaped, format, Course::Strip) {
                continue;
            }
            for b in 0..B_VALUES {
                let esb = random.below(ESB_VALUES.into()) as u16;
                let long = complete(&shaped, b, esb, format);
                if all_words_valid(&long) && check(&long).is_ok() {
                    return Joined {
                        short,
                        long,
                        in_short,
                        in_long,
                    };
                }
            }
        }
    }

    /// One of them going round, and from the end of the words in common on the other.
    /// The first has `heard` bits, and the other so many after it.
    fn one_then_the_other(&self, first: Format, heard: usize, then: usize) -> Vec<u8> {
        let end = |index: usize| WORD_BITS * (index + IN_COMMON);
        let (long, short) = (
            (&self.long, end(self.in_long)),
            (&self.short, end(self.in_short)),
        );
        let ((one, one_end), (other, other_end)) = match first {
            Format::Long => (long, short),
            Format::Short => (short, long),
        };
        // whole rounds before the end leave it where it is
        let turn = one_end + heard.next_multiple_of(one.len()) - heard;
        [
            cut(one, turn, heard, false),
            cut(other, other_end, then, false),
        ]
        .concat()
    }
}

/// What captures are made of.
pub struct Stock {
    of_formats: [Rings; 2],
    joined: Vec<Joined>,
}

impl Stock {
    pub fn new(random: &mut Random) -> Stock {
        Stock {
            of_formats: FORMATS.map(|format| Rings::new(random, format)),
            joined: (0..JOINED).map(|_| Joined::new(random)).collect(),
        }
    }

    fn of(&self, format: Format) -> &Rings {
        match format {
            Format::Long => &self.of_formats[0],
            Format::Short => &self.of_formats[1],
        }
    }
}

/// One of a list.
fn any<'a, T>(random: &mut Random, list: &'a [T]) -> &'a T {
    &list[random.below(list.len())]
}

/// Yes or no.
fn either(random: &mut Random) -> bool {
    random.below(2) == 1
}

fn any_format(random: &mut Random) -> Format {
    FORMATS[random.below(2)]
}

/// A ring from any turn on, either way up.
fn going_round(random: &mut Random, ring: &[u8], length: usize) -> Vec<u8> {
    let turn = random.below(ring.len());
    let flipped = either(random);
    cut(ring, turn, length, flipped)
}

/// A window of a proper telegram, and a bit before and after it that is not the
/// telegram's.
fn bounded_window(stock: &Stock, random: &mut Random, format: Format) -> Vec<u8> {
    let telegram = any(random, &stock.of(format).proper);
    let mut window = going_round(random, telegram, format.window_bits() + 2);
    window[0] ^= 1;
    window[format.window_bits() + 1] ^= 1;
    window
}

/// So many of the first bits, and noise after them where there are fewer.
fn filled(random: &mut Random, mut bits: Vec<u8>, length: usize) -> Vec<u8> {
    bits.truncate(length);
    let missing = length - bits.len();
    bits.extend(random.bits(missing));
    bits
}

/// Noise with these bits at some place, as far as there is room.
fn at_some_place(random: &mut Random, bits: &[u8], length: usize) -> Vec<u8> {
    let place = random.below(length.saturating_sub(bits.len()) + 1);
    let front = random.bits(place);
    filled(random, [&front[..], bits].concat(), length)
}

/// Noise with these bits at its end, as far as there is room.
fn at_the_end(random: &mut Random, bits: &[u8], length: usize) -> Vec<u8> {
    let front = random.bits(length.saturating_sub(bits.len()));
    filled(random, [&front[..], bits].concat(), length)
}

/// Bits whose pairs of a format agree in runs as long as `run` says, the first one
/// first, with one pair that differs after each. A run of 0 puts two of these side by
/// side.
pub fn with_runs(
    random: &mut Random,
    format: Format,
    length: usize,
    mut run: impl FnMut(&mut Random) -> usize,
) -> Vec<u8> {
    let n = format.telegram_bits();
    let mut bits = random.bits(n.min(length));
    let mut left = run(random);
    while bits.len() < length {
        let bit = bits[bits.len() - n];
        if left > 0 {
            bits.push(bit);
            left -= 1;
        } else {
            bits.push(1 - bit);
            left = run(random);
        }
    }
    bits
}

/// The same with runs of one length, from any pair on: there is a shorter one before
/// them.
fn with_equal_runs(random: &mut Random, format: Format, length: usize, run: usize) -> Vec<u8> {
    let mut first = Some(random.below(run + 1));
    with_runs(random, format, length, |_| first.take().unwrap_or(run))
}

/// The same with runs of r, of one more and one less, some of other lengths, and some
/// pairs between them that differ side by side.
fn with_runs_about_r(random: &mut Random, format: Format, length: usize) -> Vec<u8> {
    let r = format.extra_bits();
    with_runs(random, format, length, |random| match random.below(8) {
        0 => 0,
        1 => random.below(3 * r),
        i => r - 1 + i % 3,
    })
}

/// Noise, or runs of a format.
fn front(random: &mut Random, length: usize) -> Vec<u8> {
    if either(random) {
        return random.bits(length);
    }
    let format = any_format(random);
    with_runs_about_r(random, format, length)
}

fn noise(_: &Stock, random: &mut Random, _: Format, length: usize) -> Vec<u8> {
    random.bits(length)
}

fn all_alike(_: &Stock, random: &mut Random, _: Format, length: usize) -> Vec<u8> {
    vec![random.bits(1)[0]; length]
}

/// All pairs of a format agree where the period divides its n; those of the long one
/// then too, where it divides that of the short one.
fn pattern(_: &Stock, random: &mut Random, _: Format, length: usize) -> Vec<u8> {
    let dividing = [3, 11, 31, 33, 93, 341, 1023];
    let period = if either(random) {
        *any(random, &dividing)
    } else {
        2 + random.below(1100)
    };
    let bits = random.bits(period);
    cut(&bits, 0, length, false)
}

fn proper(stock: &Stock, random: &mut Random, format: Format, length: usize) -> Vec<u8> {
    let telegram = any(random, &stock.of(format).proper);
    going_round(random, telegram, length)
}

fn other_control(stock: &Stock, random: &mut Random, format: Format, length: usize) -> Vec<u8> {
    let telegram = any(random, &stock.of(format).other_control);
    going_round(random, telegram, length)
}

fn thinned(stock: &Stock, random: &mut Random, format: Format, length: usize) -> Vec<u8> {
    let telegram = any(random, &stock.of(format).thinned);
    going_round(random, telegram, length)
}

fn refused(stock: &Stock, random: &mut Random, format: Format, length: usize) -> Vec<u8> {
    let ring = any(random, &stock.of(format).refused);
    going_round(random, ring, length)
}

fn window_somewhere(stock: &Stock, random: &mut Random, format: Format, length: usize) -> Vec<u8> {
    let window = bounded_window(stock, random, format);
    at_some_place(random, &window, length)
}

fn window_last(stock: &Stock, random: &mut Random, format: Format, length: usize) -> Vec<u8> {
    let window = bounded_window(stock, random, format);
    at_the_end(random, &window[..window.len() - 1], length)
}

fn one_bit_short(stock: &Stock, random: &mut Random, format: Format, length: usize) -> Vec<u8> {
    let window = bounded_window(stock, random, format);
    at_the_end(random, &window[..window.len() - 2], length)
}

/// The first n bits are still those of a proper telegram.
fn one_pair_differs(stock: &Stock, random: &mut Random, format: Format, length: usize) -> Vec<u8> {
    let r = format.extra_bits();
    let somewhere = random.below(r);
    let pair = *any(random, &[0, 1, somewhere, r - 2, r - 1]);
    let mut window = bounded_window(stock, random, format);
    window[1 + format.telegram_bits() + pair] ^= 1;
    at_some_place(random, &window, length)
}

/// A run about as long as the ends, up to the last bit: of a proper telegram, or of a
/// ring that is refused.
fn run_at_the_end(stock: &Stock, random: &mut Random, format: Format, length: usize) -> Vec<u8> {
    let rings = stock.of(format);
    let ring = if either(random) {
        any(random, &rings.proper)
    } else {
        any(random, &rings.refused)
    };
    let heard = format.window_bits() - 2 + random.below(5);
    let mut run = going_round(random, ring, 1 + heard);
    run[0] ^= 1;
    at_the_end(random, &run, length)
}

/// Runs of r: each has one window.
fn runs_of_r(_: &Stock, random: &mut Random, format: Format, length: usize) -> Vec<u8> {
    with_equal_runs(random, format, length, format.extra_bits())
}

/// Runs of one pair less: there is no window.
fn runs_of_one_less(_: &Stock, random: &mut Random, format: Format, length: usize) -> Vec<u8> {
    with_equal_runs(random, format, length, format.extra_bits() - 1)
}

/// Runs of one pair more: each has two windows.
fn runs_of_one_more(_: &Stock, random: &mut Random, format: Format, length: usize) -> Vec<u8> {
    with_equal_runs(random, format, length, format.extra_bits() + 1)
}

fn runs_about_r(_: &Stock, random: &mut Random, format: Format, length: usize) -> Vec<u8> {
    with_runs_about_r(random, format, length)
}

/// Half of those before a window of the other format end with a run of r up to its
/// place.
fn runs_then_window(stock: &Stock, random: &mut Random, format: Format, length: usize) -> Vec<u8> {
    let window_format = any_format(random);
    let window = bounded_window(stock, random, window_format);
    let room = length.saturating_sub(window.len());
    let runs = random.below(room + 1);
    let place = runs + 1;
    let runs = with_runs_about_r(random, format, runs);
    let mut bits = filled(random, [runs, window].concat(), length);
    if window_format != format && either(random) {
        run_up_to(&mut bits, format, place);
    }
    bits
}

/// Makes the r pairs before a place agree, and the one before them differ, by the bits
/// before the place; where there is no room, nothing.
fn run_up_to(bits: &mut [u8], format: Format, place: usize) {
    let (n, r) = (format.telegram_bits(), format.extra_bits());
    if place <= r || bits.len() < place + n {
        return;
    }
    for j in (place - r..place).rev() {
        bits[j] = bits[j + n];
    }
    bits[place - r - 1] = 1 - bits[place - r - 1 + n];
}

/// A window at place 0, of either format.
fn window_then_runs(stock: &Stock, random: &mut Random, format: Format, length: usize) -> Vec<u8> {
    let window_format = any_format(random);
    let window = bounded_window(stock, random, window_format);
    let runs = with_runs_about_r(random, format, length);
    filled(random, [&window[1..], &runs].concat(), length)
}

fn refused_then_proper(
    stock: &Stock,
    random: &mut Random,
    format: Format,
    length: usize,
) -> Vec<u8> {
    let refused_format = any_format(random);
    let heard = refused_format.window_bits() + random.below(60);
    let front = refused(stock, random, refused_format, heard);
    let proper = proper(stock, random, format, length);
    filled(random, [front, proper].concat(), length)
}

/// A proper telegram going round, with a flipped bit or two in the first window: from
/// the run before a flipped bit, which is refused, to the window just after it.
fn few_flipped(stock: &Stock, random: &mut Random, format: Format, length: usize) -> Vec<u8> {
    let (n, r) = (format.telegram_bits(), format.extra_bits());
    let mut bits = proper(stock, random, format, length);
    let somewhere = random.below(n + r);
    let place = *any(random, &[0, r - 1, r, r + 1, 2 * r, n - 1, n, somewhere]);
    let after = *any(random, &[0, 1, r - 1, r, r + 1, r + 2, n, n + 1]);
    flip_at(&mut bits, place);
    if after > 0 {
        flip_at(&mut bits, place + after);
    }
    bits
}

/// A proper telegram going round, with flipped bits so close that there is no window
/// between them.
fn many_flipped(stock: &Stock, random: &mut Random, format: Format, length: usize) -> Vec<u8> {
    let (n, r) = (format.telegram_bits(), format.extra_bits());
    let mut bits = proper(stock, random, format, length);
    let mut place = random.below(n + r);
    while place < length {
        flip_at(&mut bits, place);
        let somewhere = 1 + random.below(n + r);
        place += any(random, &[r, r + 1, n - 1, n, n + r, somewhere, somewhere]);
    }
    bits
}

/// Flips a bit, where there is one.
fn flip_at(bits: &mut [u8], place: usize) {
    if let Some(bit) = bits.get_mut(place) {
        *bit ^= 1;
    }
}

/// A window of a format that is whole, or lacks some bits, and one of the other format
/// that begins in it, as near as can be.
fn overlapping(stock: &Stock, random: &mut Random, format: Format, length: usize) -> Vec<u8> {
    let (more, less) = (random.below(20), 1 + random.below(20));
    let w = format.window_bits();
    let heard = *any(random, &[w, w, w + more, w - 1, w - less]);
    let other = match format {
        Format::Long => Format::Short,
        Format::Short => Format::Long,
    };
    let then = other.window_bits() - WORD_BITS * IN_COMMON + more;
    let joined = any(random, &stock.joined);
    let mut bits = joined.one_then_the_other(format, heard, then);
    if either(random) {
        bits.iter_mut().for_each(|bit| *bit ^= 1);
    }
    let room = length.saturating_sub(bits.len());
    let somewhere = random.below(room + 1);
    let before = *any(random, &[room, somewhere]);
    let before = front(random, before);
    filled(random, [before, bits].concat(), length)
}

/// Parts of other kinds, one after the other.
fn parts(stock: &Stock, random: &mut Random, _: Format, length: usize) -> Vec<u8> {
    let mut bits = Vec::new();
    while bits.len() < length {
        let kind = any(random, &CAPTURE_KINDS);
        if kind.cost != Cost::AllTests && kind.name != PARTS {
            let (format, part) = (any_format(random), 1 + random.below(1500));
            bits.extend(kind.capture(stock, random, format, part));
        }
    }
    bits.truncate(length);
    bits
}

/// The name of the kind that is made of others.
const PARTS: &str = "parts of these one after the other";

/// What it costs to read the windows at every place.
#[derive(Clone, Copy, Debug, PartialEq, Eq)]
pub enum Cost {
    /// The ends of most windows differ.
    Little,
    /// Most windows are divided.
    Divisions,
    /// Most windows take all tests.
    AllTests,
}

/// A kind of capture.
pub struct CaptureKind {
    pub name: &'static str,
    pub cost: Cost,
    make: fn(&Stock, &mut Random, Format, usize) -> Vec<u8>,
}

impl CaptureKind {
    /// A capture of this kind and length, of a format where that matters.
    pub fn capture(
        &self,
        stock: &Stock,
        random: &mut Random,
        format: Format,
        length: usize,
    ) -> Vec<u8> {
        (self.make)(stock, random, format, length)
    }
}

const fn kind(
    name: &'static str,
    cost: Cost,
    make: fn(&Stock, &mut Random, Format, usize) -> Vec<u8>,
) -> CaptureKind {
    CaptureKind { name, cost, make }
}

/// All kinds.
pub static CAPTURE_KINDS: [CaptureKind; 23] = [
    kind("noise", Cost::Little, noise),
    kind("all bits alike", Cost::Divisions, all_alike),
    kind("a pattern over and over", Cost::Divisions, pattern),
    kind("a proper telegram going round", Cost::Little, proper),
    kind(
        "other control bits, going round",
        Cost::Divisions,
        other_control,
    ),
    kind("condition 4 fails, going round", Cost::AllTests, thinned),
    kind("refused for anything, going round", Cost::AllTests, refused),
    kind("noise, a window in it", Cost::Little, window_somewhere),
    kind(
        "noise, a window at the last place",
        Cost::Little,
        window_last,
    ),
    kind(
        "noise, a window one bit short at the end",
        Cost::Little,
        one_bit_short,
    ),
    kind(
        "noise, a window of which one pair differs",
        Cost::Little,
        one_pair_differs,
    ),
    kind(
        "noise, a run of about r at the end",
        Cost::Little,
        run_at_the_end,
    ),
    kind("runs of r", Cost::Little, runs_of_r),
    kind("runs of r - 1", Cost::Little, runs_of_one_less),
    kind("runs of r + 1", Cost::Little, runs_of_one_more),
    kind("runs of about r", Cost::Little, runs_about_r),
    kind("runs, a window after them", Cost::Little, runs_then_window),
    kind("a window, runs after it", Cost::Little, window_then_runs),
    kind(
        "a refused telegram, a proper one after it",
        Cost::Little,
        refused_then_proper,
    ),
    kind(
        "going round, a bit or two flipped",
        Cost::Little,
        few_flipped,
    ),
    kind(
        "going round, flipped bits everywhere",
        Cost::Divisions,
        many_flipped,
    ),
    kind("two windows that overlap", Cost::Little, overlapping),
    kind(PARTS, Cost::Little, parts),
];

/// Flips one to four bits of a capture, wherever they are.
pub fn damage(random: &mut Random, capture: &mut [u8]) {
    for _ in 0..1 + random.below(4) {
        let place = random.below(capture.len().max(1));
        flip_at(capture, place);
    }
}
