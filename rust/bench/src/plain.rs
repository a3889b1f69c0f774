//! Plain Rust with the algorithms of the proved code, written for speed:
//! divisors that the compiler knows, and no heap.

use second::conditions::{off_step_limit, THINNED_RUN};
use second::format::{Format, CHECK_BITS};
use second::read::Asked;
use second::telegram::{B_VALUES, CONTROL, ESB_VALUES};
use second::words;
use second::{refusal, Reading, Refusal};
use std::sync::LazyLock;

/// The number that B is multiplied by, and the taps of the register
/// (document 01, "Scrambling").
const FACTOR: u32 = 2_801_775_573;
const TAPS: u32 = 0xea00_0001;

/// The polynomial with these exponents, as a constant.
const fn polynomial(exponents: &[u32]) -> u128 {
    let (mut sum, mut i) = (0, 0);
    while i < exponents.len() {
        sum ^= 1 << exponents[i];
        i += 1;
    }
    sum
}

/// The product of two polynomials, as a constant.
const fn product(one: u128, other: u128) -> u128 {
    let (mut sum, mut i) = (0, 0);
    while i < 64 {
        if one >> i & 1 == 1 {
            sum ^= other << i;
        }
        i += 1;
    }
    sum
}

const F: u128 = polynomial(Format::Long.f());
pub const G: u128 = polynomial(Format::Long.g());
pub const FG: u128 = product(F, G);
const SHORT_F: u128 = polynomial(Format::Short.f());
pub const SHORT_G: u128 = polynomial(Format::Short.g());
pub const SHORT_FG: u128 = product(SHORT_F, SHORT_G);

/// The remainder by a divisor that the compiler knows.
pub fn remainder<const DIVISOR: u128>(bits: &[u8]) -> u128 {
    remainder_from::<DIVISOR>(0, bits)
}

/// The same, of bits after those that have this remainder.
pub fn remainder_from<const DIVISOR: u128>(mut register: u128, bits: &[u8]) -> u128 {
    let top = 1 << (127 - DIVISOR.leading_zeros());
    for &bit in bits {
        register = register << 1 | u128::from(bit);
        if register & top != 0 {
            register ^= DIVISOR;
        }
    }
    register
}

/// The remainder by f, whose register is one small number.
fn remainder_by_f<const F: u128>(bits: &[u8]) -> u32 {
    bits.iter()
        .fold(0, |register, &bit| step::<F>(register, u32::from(bit)))
}

fn step<const F: u128>(register: u32, bit: u32) -> u32 {
    let shifted = register << 1 | bit;
    shifted ^ 0u32.wrapping_sub(shifted >> 10) & F as u32
}

/// The turn whose remainder by f this is.
fn turn<const F: u128, const G: u128>(n: usize, remainder: u32) -> Option<usize> {
    let mut turned = const { reduced(G, F) };
    for turn in 0..n {
        if turned == remainder {
            return Some(turn);
        }
        turned = step::<F>(turned, 0);
    }
    None
}

/// The remainder of a polynomial by f, as a constant.
const fn reduced(mut polynomial: u128, f: u128) -> u32 {
    while polynomial >> 10 != 0 {
        polynomial ^= f << (f.leading_zeros() - polynomial.leading_zeros());
    }
    polynomial as u32
}

/// Scrambling.
pub fn scramble(b: u32, block: &[u8], out: &mut [u8]) {
    let mut register = b.wrapping_mul(FACTOR);
    for (bit, out) in block.iter().zip(out) {
        let scrambled = register >> 31 ^ u32::from(*bit);
        register = register << 1 ^ 0u32.wrapping_sub(scrambled) & TAPS;
        *out = scrambled as u8;
    }
}

fn descramble(b: u32, scrambled: &[u8], out: &mut [u8]) {
    let mut register = b.wrapping_mul(FACTOR);
    for (bit, out) in scrambled.iter().zip(out) {
        let bit = u32::from(*bit);
        *out = (register >> 31 ^ bit) as u8;
        register = register << 1 ^ 0u32.wrapping_sub(bit) & TAPS;
    }
}

fn number(bits: &[u8]) -> u32 {
    bits.iter()
        .fold(0, |number, &bit| number << 1 | u32::from(bit))
}

pub fn write_number(number: u32, out: &mut [u8]) {
    let width = out.len();
    for (place, out) in out.iter_mut().enumerate() {
        *out = (number >> (width - 1 - place) & 1) as u8;
    }
}

/// The sum modulo 1024 of the blocks of ten bits.
fn sum(bits: &[u8]) -> u32 {
    bits.chunks_exact(10).map(number).sum::<u32>() & 1023
}

/// The first block: the replaced one minus the others.
fn remove_sum(out: &mut [u8]) {
    let (first, others) = out.split_at_mut(10);
    write_number(number(first).wrapping_sub(sum(others)) & 1023, first);
}

/// What stands in `NUMBERS` for a word that is not in the table.
const NO_NUMBER: u16 = u16::MAX;

/// The number of each of the 2,048 words.
static NUMBERS: LazyLock<[u16; 2048]> = LazyLock::new(|| {
    let mut numbers = [NO_NUMBER; 2048];
    for i in 0..1024 {
        numbers[usize::from(words::word(i))] = i;
    }
    numbers
});

/// Refusal 9 of the word at an index.
#[cold]
fn not_word(index: usize, word: &[u8]) -> Refusal {
    let kind = words::wrong(number(word) as u16).expect("a word that is not in the table");
    Refusal::Word { kind, index }
}

/// Reads a window, as the second program's `read`.
pub fn read(window: &[u8], output: &mut [u8]) -> Result<Reading, Refusal> {
    read_asked(Asked::Proper, window, output)
}

/// Reads a window, as the second program's `read_well_formed`.
pub fn read_well_formed(window: &[u8], output: &mut [u8]) -> Result<Reading, Refusal> {
    read_asked(Asked::WellFormed, window, output)
}

fn read_asked(asked: Asked, window: &[u8], output: &mut [u8]) -> Result<Reading, Refusal> {
    match Format::of_window(window.len()).ok_or(refusal::LENGTH)? {
        Format::Long => read_as::<F, G>(Format::Long, asked, window, output),
        Format::Short => read_as::<SHORT_F, SHORT_G>(Format::Short, asked, window, output),
    }
}

fn read_as<const F: u128, const G: u128>(
    format: Format,
    asked: Asked,
    window: &[u8],
    output: &mut [u8],
) -> Result<Reading, Refusal> {
    if window.iter().any(|&byte| byte > 1) {
        return Err(refusal::NOT_A_BIT);
    }
    let output = output
        .get_mut(..format.user_bits())
        .ok_or(refusal::OUTPUT)?;
    let (turned, extra) = window.split_at(format.telegram_bits());
    if extra != &turned[..format.extra_bits()] {
        return Err(refusal::ENDS);
    }
    read_ring::<F, G>(format, asked, turned, output)
}

/// Reads a window whose bytes are bits and whose ends agree, by its first n bits.
fn read_ring<const F: u128, const G: u128>(
    format: Format,
    asked: Asked,
    turned: &[u8],
    output: &mut [u8],
) -> Result<Reading, Refusal> {
    if remainder::<G>(turned) != 0 {
        return Err(refusal::PARITY);
    }
    let turn = turn::<F, G>(turned.len(), remainder_by_f::<F>(turned)).ok_or(refusal::TURN)?;
    let mut telegram = [0; Format::Long.telegram_bits()];
    let telegram = &mut telegram[..turned.len()];
    let (front, back) = turned.split_at(turned.len() - turn);
    telegram[..turn].copy_from_slice(back);
    telegram[turn..].copy_from_slice(front);
    let flipped = telegram[format.shaped_bits()] == 1;
    if flipped {
        telegram.iter_mut().for_each(|bit| *bit = 1 - *bit);
    }
    let (b, esb) = user_bits(format, asked, telegram, output)?;
    Ok(Reading {
        format,
        b,
        turn,
        flipped,
        esb,
    })
}

/// Whether a window of a format whose bytes are bits and whose ends agree is read, by
/// its first n bits.
pub fn ring_is_read(format: Format, turned: &[u8]) -> bool {
    let mut output = [0; Format::Long.user_bits()];
    let output = &mut output[..format.user_bits()];
    match format {
        Format::Long => read_ring::<F, G>(format, Asked::Proper, turned, output),
        Format::Short => read_ring::<SHORT_F, SHORT_G>(format, Asked::Proper, turned, output),
    }
    .is_ok()
}

/// Writes the user bits of a telegram and gives its scrambling bits and extra
/// shaping bits, or refusal 8 or 9, or 10 to 12 where a proper telegram is asked
/// for.
fn user_bits(
    format: Format,
    asked: Asked,
    telegram: &[u8],
    output: &mut [u8],
) -> Result<(u16, u16), Refusal> {
    let (_, fields) = telegram.split_at(format.shaped_bits());
    if fields[..3] != CONTROL {
        return Err(refusal::CONTROL);
    }
    let mut scrambled = [0; 10 * Format::Long.words()];
    for (index, (word, ten)) in telegram
        .chunks_exact(11)
        .zip(scrambled.chunks_exact_mut(10))
        .enumerate()
    {
        let found = NUMBERS[number(word) as usize];
        if found == NO_NUMBER {
            return Err(not_word(index, word));
        }
        write_number(found.into(), ten);
    }
    if asked == Asked::Proper {
        conditions(format, telegram)?;
    }
    let b = number(&fields[3..15]);
    descramble(b, &scrambled[..format.user_bits()], output);
    remove_sum(output);
    Ok((b as u16, number(&fields[15..25]) as u16))
}

/// The words of the table.
static WORDS: LazyLock<[u16; words::ENTRIES]> =
    LazyLock::new(|| std::array::from_fn(|i| words::word(i as u16)));

/// Makes a telegram, as the second program's `make`. Of the words the last ten are
/// tested: the others come from the table.
pub fn make(block: &[u8], b: u64, esb: u64, output: &mut [u8]) -> Result<Format, Refusal> {
    match Format::of_block(block.len()).ok_or(refusal::LENGTH)? {
        Format::Long => make_as::<G, FG>(Format::Long, block, b, esb, output),
        Format::Short => make_as::<SHORT_G, SHORT_FG>(Format::Short, block, b, esb, output),
    }
}

fn make_as<const G: u128, const FG: u128>(
    format: Format,
    block: &[u8],
    b: u64,
    esb: u64,
    output: &mut [u8],
) -> Result<Format, Refusal> {
    if block.iter().any(|&byte| byte > 1) {
        return Err(refusal::NOT_A_BIT);
    }
    if b >= u64::from(B_VALUES) || esb >= u64::from(ESB_VALUES) {
        return Err(refusal::PAIR_TOO_LARGE);
    }
    let output = output
        .get_mut(..format.telegram_bits())
        .ok_or(refusal::OUTPUT)?;
    let mut telegram = [0; Format::Long.telegram_bits()];
    let telegram = &mut telegram[..format.telegram_bits()];
    let (shaped, fields) = telegram.split_at_mut(format.shaped_bits());
    shape(b as u32, &with_sum(block)[..block.len()], shaped);
    fields[..3].copy_from_slice(&CONTROL);
    write_number(b as u32, &mut fields[3..15]);
    write_number(esb as u32, &mut fields[15..25]);
    let check = remainder::<FG>(telegram) ^ G;
    let places = telegram[format.telegram_bits() - CHECK_BITS..].iter_mut();
    for (place, bit) in places.rev().enumerate() {
        *bit = (check >> place & 1) as u8;
    }
    words_from(format.blocks(), telegram)?;
    output.copy_from_slice(telegram);
    Ok(format)
}

/// A block with the sum of its blocks of ten bits in the place of the first.
pub fn with_sum(block: &[u8]) -> [u8; Format::Long.user_bits()] {
    let mut summed = [0; Format::Long.user_bits()];
    summed[..block.len()].copy_from_slice(block);
    write_number(sum(block), &mut summed[..10]);
    summed
}

/// Writes the shaped data of a block that has its sum.
pub fn shape(b: u32, summed: &[u8], out: &mut [u8]) {
    let mut scrambled = [0; Format::Long.user_bits()];
    let scrambled = &mut scrambled[..summed.len()];
    scramble(b, summed, scrambled);
    for (ten, word) in scrambled.chunks_exact(10).zip(out.chunks_exact_mut(11)) {
        write_number(WORDS[number(ten) as usize].into(), word);
    }
}

/// The place after another on a ring of n, by at most n.
fn place_after(place: usize, by: usize, n: usize) -> usize {
    if place < n - by {
        place + by
    } else {
        place - (n - by)
    }
}

/// Which of the 2,048 words are in the table.
pub static VALID: LazyLock<[bool; 2048]> =
    LazyLock::new(|| NUMBERS.map(|number| number != NO_NUMBER));

/// The number of eight bits. The product has them side by side in its top byte;
/// no two of its terms meet.
fn eight(bits: &[u8]) -> usize {
    let bits = u64::from_le_bytes(bits.try_into().expect("eight bits"));
    (bits.wrapping_mul(0x8040_2010_0804_0201) >> 56) as usize
}

/// Whether eleven bits are a word of the table.
pub fn is_word(valid: &[bool; 2048], bits: &[u8]) -> bool {
    valid[eight(&bits[..8]) << 3 | eight(&bits[3..11]) & 7]
}

/// Whether the words of a telegram from an index on are in the table: refusal 9 of
/// the first that is not.
fn words_from(index: usize, telegram: &[u8]) -> Result<(), Refusal> {
    let mut words = telegram.chunks_exact(11).enumerate().skip(index);
    match words.find(|(_, word)| !is_word(&VALID, word)) {
        None => Ok(()),
        Some((index, word)) => Err(not_word(index, word)),
    }
}

/// Room for a telegram twice, one after the other: no word of its ring crosses
/// an end there.
const TWICE: usize = 2 * Format::Long.telegram_bits();

/// Whether no run of table words from one of so many on, cut from a place on, is
/// over a limit. A run over the limit has limit+1 table words from one of them on;
/// so the last of limit+1 words that is none rules out a run from each of them up to
/// itself.
pub fn runs_within<const N: usize>(
    bits: &[u8; N],
    place: usize,
    words: usize,
    limit: usize,
) -> bool {
    let valid = &*VALID;
    let no_word = |i: &usize| !is_word(valid, &bits[place + 11 * i..][..11]);
    let mut i = 0;
    while i < words {
        let Some(last) = (i..=i + limit).rev().find(no_word) else {
            return false;
        };
        i = last + 1;
    }
    true
}

/// Condition 2.
pub fn condition_2(format: Format, telegram: &[u8]) -> bool {
    let n = telegram.len();
    let mut ring = [0; TWICE];
    ring[..n].copy_from_slice(telegram);
    ring[n..2 * n].copy_from_slice(telegram);
    (1..=10).all(|p| runs_within(&ring, p, format.words(), off_step_limit(p, format)))
}

/// Whether 22 bits from one place and from another differ in at least so many
/// places; when so many differ, the others are not looked at.
fn apart(least: usize, bits: &[u8], place: usize, by: usize) -> bool {
    let (mut at, mut other) = (place, place_after(place, by, bits.len()));
    let mut count = 0;
    for _ in 0..22 {
        if least <= count {
            return true;
        }
        count += usize::from(bits[at] != bits[other]);
        at = place_after(at, 1, bits.len());
        other = place_after(other, 1, bits.len());
    }
    least <= count
}

/// Condition 3; a short telegram meets it.
pub fn condition_3(format: Format, telegram: &[u8]) -> bool {
    format == Format::Short
        || (0..telegram.len()).step_by(11).all(|place| {
            apart(3, telegram, place, 341)
                && [338, 339, 340, 342, 343, 344]
                    .iter()
                    .all(|&by| apart(2, telegram, place, by))
        })
}

/// Writes a telegram thinned: from b0 on by `STEP` places for each bit, going
/// round `STEP` times.
fn thin<const STEP: usize>(telegram: &[u8], out: &mut [u8]) {
    let n = telegram.len();
    let mut out = out[..n].iter_mut();
    let mut at = STEP - 1;
    for _ in 0..STEP {
        let round = telegram[at..].iter().step_by(STEP);
        at = at + STEP * round.len() - n;
        for (bit, out) in round.zip(out.by_ref()) {
            *out = *bit;
        }
    }
}

/// Condition 4 of the telegram thinned by `STEP`; the ring is overwritten.
fn thinned_within<const STEP: usize>(
    format: Format,
    telegram: &[u8],
    ring: &mut [u8; TWICE],
) -> bool {
    let n = telegram.len();
    thin::<STEP>(telegram, ring);
    ring.copy_within(..n, n);
    (0..11).all(|at| runs_within(ring, at, format.words(), THINNED_RUN))
}

/// Condition 4.
pub fn condition_4(format: Format, telegram: &[u8]) -> bool {
    let mut ring = [0; TWICE];
    thinned_within::<2>(format, telegram, &mut ring)
        && thinned_within::<4>(format, telegram, &mut ring)
        && thinned_within::<8>(format, telegram, &mut ring)
        && thinned_within::<16>(format, telegram, &mut ring)
}

/// Conditions 2, 3 and 4: the refusal of the first that fails.
pub fn conditions(format: Format, telegram: &[u8]) -> Result<(), Refusal> {
    if !condition_2(format, telegram) {
        Err(refusal::OFF_STEP)
    } else if !condition_3(format, telegram) {
        Err(refusal::PERIOD)
    } else if !condition_4(format, telegram) {
        Err(refusal::THINNED)
    } else {
        Ok(())
    }
}

/// Checks a telegram, as the second program's `check`.
pub fn check(telegram: &[u8]) -> Result<Format, Refusal> {
    match Format::of_telegram(telegram.len()).ok_or(refusal::LENGTH)? {
        Format::Long => check_as::<F, G>(Format::Long, telegram),
        Format::Short => check_as::<SHORT_F, SHORT_G>(Format::Short, telegram),
    }
}

fn check_as<const F: u128, const G: u128>(
    format: Format,
    telegram: &[u8],
) -> Result<Format, Refusal> {
    if telegram.iter().any(|&byte| byte > 1) {
        Err(refusal::NOT_A_BIT)
    } else if remainder::<G>(telegram) != 0 {
        Err(refusal::PARITY)
    } else if remainder_by_f::<F>(telegram) != const { reduced(G, F) } {
        Err(refusal::TURN)
    } else if telegram[format.shaped_bits()..][..3] != CONTROL {
        Err(refusal::CONTROL)
    } else {
        words_from(0, telegram)?;
        conditions(format, telegram)?;
        Ok(format)
    }
}
