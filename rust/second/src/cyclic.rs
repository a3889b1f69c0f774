//! Polynomials over two elements: remainders, check bits and turns
//! (document 01, "Check bits"). A polynomial of degree below 128 is a u128,
//! coefficient of x^i in place i; a longer one is a list of bits, highest
//! power first.

use crate::bits::bits_of;
use crate::format::{Format, CHECK_BITS};

/// The polynomial with these exponents.
pub fn polynomial(exponents: &[u32]) -> u128 {
    exponents.iter().fold(0, |sum, &e| sum ^ 1 << e)
}

/// The product of two polynomials whose degrees add up to below 128.
pub fn product(one: u128, other: u128) -> u128 {
    (0..128)
        .filter(|&i| other >> i & 1 == 1)
        .fold(0, |sum, i| sum ^ one << i)
}

/// The degree of a polynomial other than 0.
pub fn degree(polynomial: u128) -> u32 {
    127 - polynomial.leading_zeros()
}

/// f of a format.
pub fn f(format: Format) -> u128 {
    polynomial(format.f())
}

/// g of a format.
pub fn g(format: Format) -> u128 {
    polynomial(format.g())
}

/// f*g of a format.
pub fn fg(format: Format) -> u128 {
    product(f(format), g(format))
}

/// The remainder of a list of bits: bit by bit, each shifted in, the divisor
/// taken away where its degree is reached.
pub fn remainder(bits: &[u8], divisor: u128) -> u128 {
    let degree = degree(divisor);
    let mut register = 0;
    for &bit in bits {
        register = register << 1 | u128::from(bit);
        if register >> degree & 1 == 1 {
            register ^= divisor;
        }
    }
    register
}

/// The same remainder by division on paper, on a list of bits.
pub fn remainder_on_paper(bits: &[u8], divisor: u128) -> Vec<u8> {
    let degree = degree(divisor) as usize;
    let divisor = bits_of(divisor, degree + 1);
    let mut rest = [vec![0; degree], bits.to_vec()].concat();
    for place in 0..rest.len() - degree {
        if rest[place] == 1 {
            for (i, coefficient) in divisor.iter().enumerate() {
                rest[place + i] ^= coefficient;
            }
        }
    }
    rest.split_off(rest.len() - degree)
}

/// The remainder of a list of bits by f.
pub fn remainder_by_f(bits: &[u8], format: Format) -> u128 {
    remainder(bits, f(format))
}

/// The remainder of a list of bits by g.
pub fn remainder_by_g(bits: &[u8], format: Format) -> u128 {
    remainder(bits, g(format))
}

/// The remainder of a list of bits by f*g.
pub fn remainder_by_fg(bits: &[u8], format: Format) -> u128 {
    remainder(bits, fg(format))
}

/// The 85 check bits after the first n-85 bits of a telegram.
pub fn check_bits(head: &[u8], format: Format) -> Vec<u8> {
    let raised = [head, &[0; CHECK_BITS]].concat();
    bits_of(remainder_by_fg(&raised, format) ^ g(format), CHECK_BITS)
}

/// R(turn), the remainder of x^turn * g by f.
pub fn remainder_of_turn(turn: usize, format: Format) -> u128 {
    let g = bits_of(g(format), 76);
    remainder_by_f(&[g, vec![0; turn]].concat(), format)
}

/// The turn below n with this remainder by f, found by trying every turn.
pub fn turn_of_remainder(remainder: u128, format: Format) -> Option<usize> {
    let f = f(format);
    let mut tried = remainder_of_turn(0, format);
    for turn in 0..format.telegram_bits() {
        if tried == remainder {
            return Some(turn);
        }
        tried <<= 1;
        if tried >> 10 & 1 == 1 {
            tried ^= f;
        }
    }
    None
}
