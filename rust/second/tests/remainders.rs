//! Remainders, check bits and turns: Appendix C and the facts that document
//! 01 wants established by computation.

use second::appendices::appendix_c;
use second::bits::{bits_of, flip, turn_left};
use second::cyclic::*;
use second::format::{Format, FORMATS};
use second::random::Random;

/// The bits of x^a + x^b + .. for these exponents, highest first.
fn list(exponents: &[usize]) -> Vec<u8> {
    let mut bits = vec![0; exponents[0] + 1];
    for &e in exponents {
        bits[exponents[0] - e] = 1;
    }
    bits
}

/// The product of two lists of bits.
fn product_of_lists(one: &[u8], other: &[u8]) -> Vec<u8> {
    let mut product = vec![0; one.len() + other.len() - 1];
    for (i, a) in one.iter().enumerate() {
        for (j, b) in other.iter().enumerate() {
            product[i + j] ^= a & b;
        }
    }
    product
}

#[test]
fn polynomials() {
    assert_eq!(f(Format::Long), 0x6df);
    assert_eq!(f(Format::Short), 0x5ab);
    assert_eq!(g(Format::Long), 0xb88739a7a2ed523ba13);
    assert_eq!(g(Format::Short), 0x9f790c2fef7ca4a3c4b);
    assert_eq!(fg(Format::Long), 0x3ec171890c6f72c063b091);
    assert_eq!(fg(Format::Short), 0x2bb94d87757959021b6d65);
    for format in FORMATS {
        assert_eq!(degree(f(format)), 10);
        assert_eq!(degree(g(format)), 75);
        assert_eq!(degree(fg(format)), 85);
    }
}

#[test]
fn fg_divides() {
    for format in FORMATS {
        let n = format.telegram_bits();
        assert_eq!(remainder_by_fg(&list(&[n, 0]), format), 0);
        assert_eq!(remainder_by_fg(&vec![1; n], format), 0);
    }
}

#[test]
fn turns_differ() {
    for format in FORMATS {
        let n = format.telegram_bits();
        let mut seen = [false; 1024];
        for turn in 0..n {
            let remainder = remainder_of_turn(turn, format);
            assert_ne!(remainder, 0);
            assert!(!seen[remainder as usize]);
            seen[remainder as usize] = true;
            assert_eq!(turn_of_remainder(remainder, format), Some(turn));
        }
        for remainder in 0..1024 {
            let found = turn_of_remainder(remainder, format);
            assert_eq!(found.is_some(), seen[remainder as usize]);
        }
    }
}

#[test]
fn f_and_g_have_no_common_factor() {
    for (format, c) in [(Format::Long, 0x353), (Format::Short, 0x363)] {
        let inverse = bits_of(product(c, g(format)), 128);
        assert_eq!(remainder_by_f(&inverse, format), 1);
    }
}

#[test]
fn three_rounds_of_a_short_telegram() {
    let rounds = list(&[682, 341, 0]);
    assert_eq!(remainder_by_f(&rounds, Format::Long), 0);
    let repeated = product_of_lists(&bits_of(g(Format::Short), 76), &rounds);
    assert_eq!(remainder_by_g(&repeated, Format::Long), 0);
}

#[test]
fn appendix_c_is_the_turns() {
    let printed = appendix_c();
    assert_eq!(printed.len(), 1023);
    for (turn, remainder) in printed.into_iter().enumerate() {
        assert_eq!(remainder, remainder_of_turn(turn, Format::Long));
    }
}

#[test]
fn two_ways_of_dividing() {
    let mut random = Random::new(1);
    for format in FORMATS {
        for divisor in [f(format), g(format), fg(format)] {
            for length in [0, 1, 10, 84, 85, 86, 341, 1023] {
                let bits = random.bits(length);
                let paper = remainder_on_paper(&bits, divisor);
                let width = degree(divisor) as usize;
                assert_eq!(paper, bits_of(remainder(&bits, divisor), width));
            }
        }
    }
}

#[test]
fn check_bits_leave_g() {
    let mut random = Random::new(2);
    for format in FORMATS {
        let n = format.telegram_bits();
        for _ in 0..20 {
            let head = random.bits(n - 85);
            let telegram = [head.clone(), check_bits(&head, format)].concat();
            assert_eq!(remainder_by_fg(&telegram, format), g(format));
            let turn = random.below(n);
            let turned = turn_left(&telegram, turn);
            for bits in [flip(&turned), turned] {
                assert_eq!(remainder_by_g(&bits, format), 0);
                let remainder = remainder_by_f(&bits, format);
                assert_eq!(turn_of_remainder(remainder, format), Some(turn));
            }
        }
    }
}
