//! Plain Rust's quick search against the second program, and its tests that every byte
//! is a bit.

use crate::quick_search::{all_bits_by_all, all_bits_by_largest, all_bits_by_loop, first_place};
use compare::captures::{of_every_kind, print};
use second::bits::all_bits;
use second::capture_kinds::{Cost, Stock, CAPTURE_KINDS};
use second::first_found;
use second::format::FORMATS;
use second::random::Random;

#[test]
fn places_are_those_of_the_second_program() {
    let seed = 11;
    let cases = of_every_kind(&mut Random::new(seed), |cost| match cost {
        Cost::Little => 20,
        Cost::Divisions => 6,
        Cost::AllTests => 3,
    });
    let stock = Stock::new(&mut Random::new(seed));
    let mut formats = Vec::new();
    for (i, case) in cases.iter().enumerate() {
        let capture = case.capture(&stock, seed << 32 | i as u64);
        let found = first_found(&capture);
        let place = found.as_ref().map(|found| found.place);
        assert_eq!(first_place(&capture), place, "{}", case.kind.name);
        formats.push(found.map(|found| found.reading.format));
    }
    print("captures searched by plain Rust", &cases, &formats);
}

/// From none on, those of a window and one bit less among them.
#[test]
fn short_lengths() {
    let mut random = Random::new(12);
    let stock = Stock::new(&mut random);
    let proper = CAPTURE_KINDS
        .iter()
        .find(|kind| kind.name.starts_with("a proper"));
    let proper = proper.expect("a proper telegram going round");
    for length in 0..1200 {
        for format in FORMATS {
            let capture = proper.capture(&stock, &mut random, format, length);
            let place = first_found(&capture).map(|found| found.place);
            assert_eq!(first_place(&capture), place);
        }
    }
}

#[test]
fn bytes_that_are_no_bits() {
    let mut random = Random::new(13);
    for length in 0..200 {
        let bits = random.bits(length);
        assert!(all_bits_by_loop(&bits) && all_bits_by_all(&bits));
        assert!(all_bits_by_largest(&bits) && layers::all_bits(&bits));
        for place in 0..length {
            let mut bytes = bits.clone();
            bytes[place] = random.number() as u8;
            let expected = all_bits(&bytes);
            assert_eq!(all_bits_by_loop(&bytes), expected);
            assert_eq!(all_bits_by_all(&bytes), expected);
            assert_eq!(all_bits_by_largest(&bytes), expected);
            assert_eq!(layers::all_bits(&bytes), expected);
        }
    }
}
