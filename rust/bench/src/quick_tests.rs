//! Plain Rust's encoder, with every combination of its measures, and its search for the
//! next pair, against the second program.

use crate::quick::{encode, next, ALL, UPDATES};
use compare::patterns;
use second::appendices::{appendix_b, block_without_a_pair};
use second::format::{Format, FORMATS};
use second::random::Random;
use second::read::user_bits_of;
use second::{encode_skipping, next_skipping, pairs_skipping, Encoded, Refusal};

/// An encoder.
type Encoder = fn(&[u8], &mut [u8]) -> Result<Encoded, Refusal>;

/// That of plain Rust with each combination of measures.
const COMBINATIONS: [Encoder; ALL as usize + 1] = [
    encode::<0>,
    encode::<1>,
    encode::<2>,
    encode::<3>,
    encode::<4>,
    encode::<5>,
    encode::<6>,
    encode::<7>,
    encode::<8>,
    encode::<9>,
    encode::<10>,
    encode::<11>,
    encode::<12>,
    encode::<13>,
    encode::<14>,
    encode::<15>,
];

/// What an encoder answers, and every byte of an output of this length.
fn outcome(encoder: Encoder, block: &[u8], room: usize) -> (Result<Encoded, Refusal>, Vec<u8>) {
    let mut output = vec![9; room];
    let answer = encoder(block, &mut output);
    (answer, output)
}

/// Compares some combinations on a block and an output of this length.
fn compare(encoders: &[Encoder], block: &[u8], room: usize) -> Result<Encoded, Refusal> {
    let expected = outcome(encode_skipping, block, room);
    for &encoder in encoders {
        assert_eq!(outcome(encoder, block, room), expected);
    }
    expected.0
}

/// Random blocks, patterns, and the blocks of Appendix B.
#[test]
fn answers_are_those_of_the_second_program() {
    let mut random = Random::new(8);
    let mut blocks: Vec<Vec<u8>> = appendix_b()
        .iter()
        .map(|row| user_bits_of(&row.telegram_bits(), row.format()).expect("user bits"))
        .collect();
    for format in FORMATS {
        let m = format.user_bits();
        blocks.extend((0..6).map(|_| random.bits(m)));
        blocks.extend(patterns(m).into_iter().step_by(6));
    }
    for block in blocks {
        let format = Format::of_block(block.len()).expect("a block");
        let answer = compare(&COMBINATIONS, &block, format.telegram_bits() + 7);
        assert!(answer.is_ok());
    }
}

/// With the combinations that update the check bits; without it takes seconds.
#[test]
fn a_block_without_a_pair() {
    let combinations = COMBINATIONS.iter().enumerate();
    let encoders: Vec<Encoder> = combinations
        .filter(|(measures, _)| *measures as u8 & UPDATES != 0)
        .map(|(_, &encoder)| encoder)
        .collect();
    let answer = compare(&encoders, &block_without_a_pair(), 1030);
    assert!(matches!(answer, Err(Refusal::NoPair { .. })));
}

#[test]
fn refusals_before_the_search() {
    let mut random = Random::new(9);
    for format in FORMATS {
        let (m, n) = (format.user_bits(), format.telegram_bits());
        let block = random.bits(m);
        let mut no_bit = block.clone();
        no_bit[random.below(m)] = 2;
        for (block, room, number) in [
            (&block[1..], n - 1, 1),
            (&no_bit[1..], n, 1),
            (&no_bit, n - 1, 2),
            (&block, n - 1, 3),
            (&block, 0, 3),
        ] {
            let answer = compare(&COMBINATIONS, block, room);
            assert_eq!(answer, Err(Refusal::Number(number)));
        }
    }
}

/// Compares the next pair at or after B and esb, and every byte of an output of this
/// length: the refusal, if there is one.
fn compare_next(block: &[u8], b: u64, esb: u64, room: usize) -> Option<Refusal> {
    let (mut ours, mut expected) = (vec![9; room], vec![9; room]);
    let answer = next(block, b, esb, &mut ours);
    assert_eq!(answer, next_skipping(block, b, esb, &mut expected));
    assert_eq!(ours, expected);
    answer.err()
}

/// From random starts on, from pairs on and from just after them, and the refusals.
#[test]
fn next_pairs() {
    let mut random = Random::new(10);
    for format in FORMATS {
        let (m, n) = (format.user_bits(), format.telegram_bits());
        let block = random.bits(m);
        for pair in pairs_skipping(&block).expect("a block").step_by(10) {
            let (b, esb) = (u64::from(pair.b), u64::from(pair.esb));
            assert_eq!(compare_next(&block, b, esb, n), None);
            assert_eq!(compare_next(&block, b, esb + 1, n + 7), None);
            let (b, esb) = (random.below(4096) as u64, random.below(1024) as u64);
            assert_eq!(compare_next(&block, b, esb, n + 7), None);
        }
        assert_eq!(compare_next(&block, 4095, 1023, n), None);
        let mut no_bit = block.clone();
        no_bit[m - 1] = 2;
        for (block, b, esb, room, number) in [
            (&no_bit[1..], 4096, 0, 0, 1),
            (&no_bit, 4096, 0, n, 2),
            (&block, 4096, 0, n - 1, 27),
            (&block, 0, 1024, n, 27),
            (&block, 1 << 32, 0, n, 27),
            (&block, 0, u64::MAX, n, 27),
            (&block, 0, 0, n - 1, 3),
        ] {
            let refused = Some(Refusal::Number(number));
            assert_eq!(compare_next(block, b, esb, room), refused);
        }
    }
}
