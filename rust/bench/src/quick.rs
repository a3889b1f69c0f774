//! Encoding, and the next proper pair, in plain Rust with the algorithm of the proved
//! engine, written for speed. Each of its measures can be left out, to see what it
//! brings.

use crate::plain::{
    conditions, is_word, remainder, remainder_from, runs_within, shape, with_sum, write_number, FG,
    G, SHORT_FG, SHORT_G, VALID,
};
use second::conditions::off_step_limit;
use second::encode::PAIRS;
use second::format::{Format, CHECK_BITS};
use second::telegram::{B_VALUES, ESB_VALUES};
use second::{refusal, Encoded, Next, Refusal};
use std::hint::black_box;

/// A measure: a B is dropped whose own word, b109 to b99, is not in the table.
pub const FIRST_WORD: u8 = 1;

/// A measure: a B is dropped whose shaped data alone has a run that condition 2 bars.
pub const RUNS: u8 = 2;

/// A measure: from one esb to the next the check bits are updated. Without it they are
/// divided afresh for each.
pub const UPDATES: u8 = 4;

/// A measure: the last ten words are looked up in two numbers, and written only where
/// all are in the table. Without it they are written first.
pub const NUMBERS: u8 = 8;

/// All measures; less than this, some of them.
pub const ALL: u8 = FIRST_WORD | RUNS | UPDATES | NUMBERS;

/// Bits of a telegram after the shaped data: ten words.
const LAST_BITS: usize = 110;

/// A telegram's room.
type Telegram = [u8; Format::Long.telegram_bits()];

/// The last ten words of a telegram, five in each number: b109 to b55, b54 to b0.
#[derive(Clone, Copy)]
struct LastWords {
    high: u64,
    low: u64,
}

/// Bits in each of the two numbers.
const HALF: usize = LAST_BITS / 2;

impl LastWords {
    const fn of(bits: u128) -> LastWords {
        LastWords {
            high: (bits >> HALF) as u64,
            low: (bits & ((1 << HALF) - 1)) as u64,
        }
    }

    /// Adds a difference.
    fn change(&mut self, by: LastWords) {
        self.high ^= by.high;
        self.low ^= by.low;
    }

    /// Whether all ten are in the table, from the first on.
    fn in_table(self, valid: &[bool; 2048]) -> bool {
        let five = |words: u64| {
            (0..5)
                .rev()
                .all(|i| valid[(words >> (11 * i)) as usize & 2047])
        };
        five(self.high) && five(self.low)
    }

    fn write(self, out: &mut [u8]) {
        let (front, back) = out.split_at_mut(HALF);
        for (half, out) in [(self.high, front), (self.low, back)] {
            for (bit, place) in out.iter_mut().zip((0..HALF).rev()) {
                *bit = (half >> place & 1) as u8;
            }
        }
    }
}

/// Control bits, B and esb.
const FIELD_BITS: usize = LAST_BITS - CHECK_BITS;

/// The remainder of bits after those that have this one, with a branch that the
/// processor learns: the quicker way where the same bits are divided over and over, as
/// the shaped data is for each esb.
fn remainder_again<const DIVISOR: u128>(mut register: u128, bits: &[u8]) -> u128 {
    for &bit in bits {
        register = register << 1 | u128::from(bit);
        if register >> CHECK_BITS & 1 == 1 {
            // so that the compiler keeps the branch
            black_box(());
            register ^= DIVISOR;
        }
    }
    register
}

/// The last ten words after this shaped data, the check bits by a division.
fn divided<const MEASURES: u8, const G: u128, const FG: u128>(
    shaped: &[u8],
    b: u32,
    esb: u32,
) -> LastWords {
    // the control bits are 0, 0, 1
    let fields = 1 << 22 | b << 10 | esb;
    let mut last = [0; LAST_BITS];
    write_number(fields, &mut last[..FIELD_BITS]);
    let rest = if MEASURES & UPDATES != 0 {
        remainder_from::<FG>(remainder::<FG>(shaped), &last)
    } else {
        remainder_again::<FG>(remainder_again::<FG>(0, shaped), &last)
    };
    LastWords::of(u128::from(fields) << CHECK_BITS | (rest ^ G))
}

/// How the last ten words change from one esb to the next: their difference is 1, 3, 7,
/// .. or 1023, and so the check bits change by the remainder of that times x^85.
const fn changes(fg: u128) -> [LastWords; 10] {
    let mut changes = [LastWords { high: 0, low: 0 }; 10];
    let mut i = 0;
    while i < changes.len() {
        let difference = ((2 << i) - 1) << CHECK_BITS;
        let mut rest: u128 = difference;
        while rest >> CHECK_BITS != 0 {
            rest ^= fg << (fg.leading_zeros() - rest.leading_zeros());
        }
        changes[i] = LastWords::of(difference | rest);
        i += 1;
    }
    changes
}

/// Whether shaped data alone has no run that condition 2 bars, at any step.
fn runs_of_shaped_data_within(format: Format, telegram: &Telegram) -> bool {
    (1..=10).all(|p| {
        let limit = off_step_limit(p, format);
        // off step it has one word less
        runs_within(telegram, p, format.blocks() - 1 - limit, limit)
    })
}

/// The first esb, from one on, with which the telegram of this shaped data and B is
/// proper; it is then in the telegram's room.
fn esb_from<const MEASURES: u8, const G: u128, const FG: u128>(
    format: Format,
    b: u32,
    from: u32,
    telegram: &mut Telegram,
) -> Option<u32> {
    let valid = &*VALID;
    let changes = const { &changes(FG) };
    let (at, n) = (format.shaped_bits(), format.telegram_bits());
    let mut last = divided::<MEASURES, G, FG>(&telegram[..at], b, from);
    for esb in from..u32::from(ESB_VALUES) {
        if MEASURES & UPDATES == 0 {
            last = divided::<MEASURES, G, FG>(&telegram[..at], b, esb);
        }
        let words_pass = if MEASURES & NUMBERS != 0 {
            let pass = last.in_table(valid);
            if pass {
                last.write(&mut telegram[at..n]);
            }
            pass
        } else {
            last.write(&mut telegram[at..n]);
            let mut words = telegram[at..n].chunks_exact(11);
            words.all(|word| is_word(valid, word))
        };
        if words_pass && conditions(format, &telegram[..n]).is_ok() {
            return Some(esb);
        }
        if MEASURES & UPDATES != 0 {
            // esb ^ (esb + 1) is as many ones as esb ends with, and one more
            if let Some(&change) = changes.get(esb.trailing_ones() as usize) {
                last.change(change);
            }
        }
    }
    None
}

/// A pair: B and esb.
type Pair = (u32, u32);

/// The first pair at or after one whose telegram is proper; it is then in the
/// telegram's room.
fn pair_from<const MEASURES: u8, const G: u128, const FG: u128>(
    format: Format,
    block: &[u8],
    start: Pair,
    telegram: &mut Telegram,
) -> Option<Pair> {
    let summed = with_sum(block);
    for b in start.0..u32::from(B_VALUES) {
        if MEASURES & FIRST_WORD != 0 && !VALID[(256 + b / 16) as usize] {
            continue;
        }
        shape(
            b,
            &summed[..block.len()],
            &mut telegram[..format.shaped_bits()],
        );
        if MEASURES & RUNS != 0 && !runs_of_shaped_data_within(format, telegram) {
            continue;
        }
        let from = if b == start.0 { start.1 } else { 0 };
        if let Some(esb) = esb_from::<MEASURES, G, FG>(format, b, from, telegram) {
            return Some((b, esb));
        }
    }
    None
}

/// Encodes a block, as the second program's `encode`, with these measures.
pub fn encode<const MEASURES: u8>(block: &[u8], output: &mut [u8]) -> Result<Encoded, Refusal> {
    match Format::of_block(block.len()).ok_or(refusal::LENGTH)? {
        Format::Long => encode_as::<MEASURES, G, FG>(Format::Long, block, output),
        Format::Short => encode_as::<MEASURES, SHORT_G, SHORT_FG>(Format::Short, block, output),
    }
}

fn encode_as<const MEASURES: u8, const G: u128, const FG: u128>(
    format: Format,
    block: &[u8],
    output: &mut [u8],
) -> Result<Encoded, Refusal> {
    if block.iter().any(|&byte| byte > 1) {
        return Err(refusal::NOT_A_BIT);
    }
    let none = Refusal::NoPair { tried: PAIRS };
    let pair = write_from::<MEASURES, G, FG>(format, block, (0, 0), output)?;
    let (b, esb) = pair.ok_or(none)?;
    Ok(Encoded {
        format,
        b: b as u16,
        esb: esb as u16,
        count: u32::from(ESB_VALUES) * b + esb + 1,
    })
}

/// The first pair at or after one whose telegram is proper, the telegram into the
/// output; or refusal 3.
fn write_from<const MEASURES: u8, const G: u128, const FG: u128>(
    format: Format,
    block: &[u8],
    start: Pair,
    output: &mut [u8],
) -> Result<Option<Pair>, Refusal> {
    let n = format.telegram_bits();
    let output = output.get_mut(..n).ok_or(refusal::OUTPUT)?;
    let mut telegram = [0; Format::Long.telegram_bits()];
    let pair = pair_from::<MEASURES, G, FG>(format, block, start, &mut telegram);
    if pair.is_some() {
        output.copy_from_slice(&telegram[..n]);
    }
    Ok(pair)
}

/// The next proper pair, as the second program's `next`, with all measures.
pub fn next(block: &[u8], b: u64, esb: u64, output: &mut [u8]) -> Result<Option<Next>, Refusal> {
    match Format::of_block(block.len()).ok_or(refusal::LENGTH)? {
        Format::Long => next_as::<G, FG>(Format::Long, block, b, esb, output),
        Format::Short => next_as::<SHORT_G, SHORT_FG>(Format::Short, block, b, esb, output),
    }
}

fn next_as<const G: u128, const FG: u128>(
    format: Format,
    block: &[u8],
    b: u64,
    esb: u64,
    output: &mut [u8],
) -> Result<Option<Next>, Refusal> {
    if block.iter().any(|&byte| byte > 1) {
        return Err(refusal::NOT_A_BIT);
    }
    if b >= u64::from(B_VALUES) || esb >= u64::from(ESB_VALUES) {
        return Err(refusal::PAIR_TOO_LARGE);
    }
    let pair = write_from::<ALL, G, FG>(format, block, (b as u32, esb as u32), output)?;
    Ok(pair.map(|(b, esb)| Next {
        format,
        b: b as u16,
        esb: esb as u16,
    }))
}
