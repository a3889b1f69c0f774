//! Encoding, by both engines: the pair, the count and every byte of the output.
//! Random and patterned blocks are those of `engines`.

use compare::calls::{encode, encode_by_both};
use compare::{both_formats, other_lengths};
use second::appendices::{appendix_b, block_without_a_pair};
use second::encode::PAIRS;
use second::format::Format;
use second::random::Random;
use second::read::user_bits_of;
use second::telegram::{b_of, esb_of};
use second::{Encoded, Refusal};

/// Encodes a block that has a pair, into outputs of its size and larger.
fn compare_block(random: &mut Random, block: &[u8]) -> (Encoded, Vec<u8>) {
    let n = Format::of_block(block.len()).unwrap().telegram_bits();
    let room = n + random.below(40);
    let (answer, mut output) = encode_by_both(random, second::encode, block, room);
    output.truncate(n);
    let encoded = answer.unwrap();
    let count = 1024 * u32::from(encoded.b) + u32::from(encoded.esb) + 1;
    assert_eq!(encoded.count, count);
    (encoded, output)
}

/// The first pair is the printed one in every row: of the printed block, its
/// shortened run filled in, or in row 5 of the block that the telegram carries.
#[test]
fn blocks_of_appendix_b() {
    let mut random = Random::new(62);
    for row in appendix_b() {
        let (number, format, telegram) = (row.number, row.format(), row.telegram_bits());
        let carried = user_bits_of(&telegram, format).unwrap();
        let (encoded, output) = compare_block(&mut random, &carried);
        assert_eq!(encoded.format, format, "row {number}");
        let pair = (b_of(&telegram, format), esb_of(&telegram, format));
        assert_eq!((encoded.b, encoded.esb), pair, "row {number}");
        assert_eq!(output, telegram, "row {number}");
        // Row 5's block does not belong to its telegram.
        let filled = row.filled_user_bits();
        assert_eq!(filled == carried, number != 5, "row {number}");
        if filled != carried {
            let (_, output) = compare_block(&mut random, &filled);
            assert_ne!(output, telegram, "row {number}");
        }
    }
}

/// By the plain engine, which takes seconds, in `engines`.
#[test]
fn a_block_without_a_pair() {
    let mut random = Random::new(64);
    let refused = Refusal::NoPair { tried: PAIRS };
    assert_eq!(PAIRS, 4_194_304);
    let block = block_without_a_pair();
    let (answer, _) = encode(&mut random, second::encode_skipping, &block, 1040);
    assert_eq!(answer, Err(refused));
}

fn refuse(random: &mut Random, block: &[u8], room: usize, number: u8) {
    let (answer, _) = encode_by_both(random, second::encode, block, room);
    assert_eq!(answer, Err(Refusal::Number(number)));
}

#[test]
fn lengths_that_fit_no_format() {
    let mut random = Random::new(65);
    for block in other_lengths(&mut random, [210, 830]) {
        for room in [0, 340, 1022, 1023, 1100] {
            refuse(&mut random, &block, room, 1);
        }
    }
}

#[test]
fn bytes_that_are_no_bits() {
    both_formats(66, |format, random| {
        let (m, n) = (format.user_bits(), format.telegram_bits());
        let drawn: Vec<usize> = random.places(20, m);
        for place in [0, 1, m / 2, m - 2, m - 1].into_iter().chain(drawn) {
            for value in [2, 3, 128, 254, 255] {
                for room in [0, n - 1, n, n + 9] {
                    let mut block = random.bits(m);
                    block[place] = value;
                    refuse(random, &block, room, 2);
                }
            }
        }
        refuse(random, &vec![255; m], n, 2);
    });
}

#[test]
fn outputs_that_are_too_short() {
    both_formats(67, |format, random| {
        let n = format.telegram_bits();
        for room in 0..n {
            let block = random.bits(format.user_bits());
            refuse(random, &block, room, 3);
        }
        // One byte more is enough.
        let block = random.bits(format.user_bits());
        assert!(encode_by_both(random, second::encode, &block, n).0.is_ok());
    });
}
