//! The formats' numbers, remainders, check bits and turns.

use compare::{both_formats, long, patterns, two_words, written};
use second::appendices::{appendix_b, appendix_c};
use second::bits::{bits_of, flip, turn_left};
use second::cyclic;
use second::format::{Format, CHECK_BITS, FORMATS};
use second::random::Random;

/// Compares the remainders by f, g and f*g.
fn compare_remainders(random: &mut Random, format: Format, bits: &[u8]) {
    let long = long(format);
    assert_eq!(
        u128::from(layers::remainder_f(long, bits)),
        cyclic::remainder_by_f(bits, format)
    );
    assert_eq!(
        two_words(random, |out| layers::remainder_g(long, bits, out)),
        cyclic::remainder_by_g(bits, format)
    );
    assert_eq!(
        two_words(random, |out| layers::remainder_fg(long, bits, out)),
        cyclic::remainder_by_fg(bits, format)
    );
}

fn compare_check_bits(random: &mut Random, format: Format, bits: &[u8]) {
    assert_eq!(
        written(random, CHECK_BITS, |out| layers::check_bits(
            long(format),
            bits,
            out
        )),
        cyclic::check_bits(bits, format)
    );
}

fn compare_turn(format: Format, remainder: u128) {
    assert_eq!(
        layers::turn(long(format), remainder as u64),
        cyclic::turn_of_remainder(remainder, format).unwrap_or(format.telegram_bits())
    );
}

#[test]
fn numbers_of_the_formats() {
    for format in FORMATS {
        let long = long(format);
        assert_eq!(layers::telegram_bits(long), format.telegram_bits());
        assert_eq!(layers::user_bits(long), format.user_bits());
        assert_eq!(layers::extra_bits(long), format.extra_bits());
        assert_eq!(layers::words(long), format.words());
    }
}

#[test]
fn sizes_of_the_wrapper() {
    for (ours, format) in balise::Format::ALL.into_iter().zip(FORMATS) {
        assert_eq!(ours.user_bits(), format.user_bits());
        assert_eq!(ours.words(), format.words());
        assert_eq!(ours.telegram_bits(), format.telegram_bits());
        assert_eq!(ours.extra_bits(), format.extra_bits());
        assert_eq!(ours.window_bits(), format.window_bits());
    }
    assert_eq!(balise::CAPTURE_LIMIT, second::CAPTURE_LIMIT);
}

#[test]
fn random_bits() {
    both_formats(31, |format, random| {
        for length in 0..=1100 {
            for _ in 0..5 {
                let bits = random.bits(length);
                compare_remainders(random, format, &bits);
                compare_check_bits(random, format, &bits);
            }
        }
    });
}

#[test]
fn patterned_bits() {
    both_formats(32, |format, random| {
        for length in (0..=1100).step_by(7).chain([10, 74, 75, 84, 85, 341, 1023]) {
            for bits in patterns(length) {
                compare_remainders(random, format, &bits);
                compare_check_bits(random, format, &bits);
            }
        }
    });
}

#[test]
fn single_bits() {
    both_formats(33, |format, random| {
        for place in 0..1100 {
            let mut bits = vec![0; 1100];
            bits[place] = 1;
            compare_remainders(random, format, &bits);
            compare_check_bits(random, format, &bits);
        }
    });
}

#[test]
fn every_remainder_by_f() {
    for format in FORMATS {
        for remainder in 0..1024 {
            compare_turn(format, remainder);
        }
    }
}

/// Both programs give each remainder of Appendix C, from x^turn * g and from
/// x^turn * g by f*g; and the turn from the remainder.
#[test]
fn appendix_c_remainders() {
    let (format, mut random) = (Format::Long, Random::new(34));
    let printed = appendix_c();
    assert_eq!(printed.len(), format.telegram_bits());
    for (turn, remainder) in printed.into_iter().enumerate() {
        let turned = [bits_of(cyclic::g(format), 76), vec![0; turn]].concat();
        assert_eq!(u128::from(layers::remainder_f(true, &turned)), remainder);
        assert_eq!(cyclic::remainder_of_turn(turn, format), remainder);
        assert_eq!(layers::turn(true, remainder as u64), turn);
        assert_eq!(cyclic::turn_of_remainder(remainder, format), Some(turn));
        let by_fg = two_words(&mut random, |out| layers::remainder_fg(true, &turned, out));
        let by_fg = bits_of(by_fg, CHECK_BITS);
        assert_eq!(u128::from(layers::remainder_f(true, &by_fg)), remainder);
    }
}

/// The telegrams of Appendix B at every turn, upright and flipped.
#[test]
fn appendix_b_telegrams() {
    let mut random = Random::new(35);
    for row in appendix_b() {
        let (format, telegram) = (row.format(), row.telegram_bits());
        let (head, check) = telegram.split_at(format.telegram_bits() - CHECK_BITS);
        compare_check_bits(&mut random, format, head);
        let ours = written(&mut random, CHECK_BITS, |out| {
            layers::check_bits(long(format), head, out)
        });
        assert_eq!(ours, check, "row {}", row.number);
        for turn in 0..format.telegram_bits() {
            let turned = turn_left(&telegram, turn);
            for bits in [flip(&turned), turned] {
                compare_remainders(&mut random, format, &bits);
                let remainder = layers::remainder_f(long(format), &bits);
                compare_turn(format, remainder.into());
                assert_eq!(layers::turn(long(format), remainder), turn);
            }
        }
    }
}
