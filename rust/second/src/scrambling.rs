//! Scrambling and the first block's sum (document 01, "Scrambling").

use crate::bits::{bits_of, number_of};

/// The number that B is multiplied by.
const FACTOR: u32 = 2_801_775_573;

/// The taps 31, 30, 29, 27, 25 and 0.
const TAPS: u32 = 1 << 31 | 1 << 30 | 1 << 29 | 1 << 27 | 1 << 25 | 1;

/// S, the register's start, from the scrambling bits B.
pub fn start(b: u16) -> u32 {
    FACTOR.wrapping_mul(u32::from(b))
}

fn top(register: u32) -> u8 {
    (register >> 31) as u8
}

fn step(register: u32, feedback: u8) -> u32 {
    let shifted = register << 1;
    if feedback == 1 {
        shifted ^ TAPS
    } else {
        shifted
    }
}

/// Scrambles a list of bits; the scrambled bit is fed back.
pub fn scramble(user: &[u8], b: u16) -> Vec<u8> {
    let mut register = start(b);
    let mut scrambled = Vec::with_capacity(user.len());
    for bit in user {
        let out = top(register) ^ bit;
        register = step(register, out);
        scrambled.push(out);
    }
    scrambled
}

/// Undoes `scramble`.
pub fn descramble(scrambled: &[u8], b: u16) -> Vec<u8> {
    let mut register = start(b);
    let mut user = Vec::with_capacity(scrambled.len());
    for &bit in scrambled {
        user.push(top(register) ^ bit);
        register = step(register, bit);
    }
    user
}

/// The other reading of the lost drawing: the register's top bit alone is fed
/// back. One call scrambles and descrambles. Only to try on Appendix B.
pub fn scramble_by_top_bit(bits: &[u8], b: u16) -> Vec<u8> {
    let mut register = start(b);
    let mut out = Vec::with_capacity(bits.len());
    for bit in bits {
        out.push(top(register) ^ bit);
        register = step(register, top(register));
    }
    out
}

/// The sum modulo 1024 of the blocks of ten bits.
fn sum(bits: &[u8]) -> u64 {
    bits.chunks(10).map(number_of).sum::<u64>() % 1024
}

/// A list of bits with another first block of ten.
fn with_first(first: u64, bits: &[u8]) -> Vec<u8> {
    [&bits_of(u128::from(first), 10), &bits[10..]].concat()
}

/// The user bits with the first block replaced by the sum of all blocks.
pub fn replace_first(user: &[u8]) -> Vec<u8> {
    with_first(sum(user), user)
}

/// Undoes `replace_first`: the replaced block minus the other blocks.
pub fn restore_first(replaced: &[u8]) -> Vec<u8> {
    let first = number_of(&replaced[..10]) + 1024 - sum(&replaced[10..]);
    with_first(first % 1024, replaced)
}
