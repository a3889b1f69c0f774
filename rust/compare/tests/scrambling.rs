//! Scrambling and the sum in the first block.

use compare::{both_formats, patterns, written};
use second::appendices::appendix_b;
use second::random::Random;
use second::read::{scrambled_bits_of, user_bits_of};
use second::scrambling;
use second::telegram::{b_of, B_VALUES};

fn scramble(random: &mut Random, b: u16, block: &[u8]) -> Vec<u8> {
    written(random, block.len(), |out| layers::scramble(b, block, out))
}

fn descramble(random: &mut Random, b: u16, block: &[u8]) -> Vec<u8> {
    written(random, block.len(), |out| layers::descramble(b, block, out))
}

fn add_sum(block: &[u8]) -> Vec<u8> {
    let mut block = block.to_vec();
    layers::add_sum(&mut block);
    block
}

fn remove_sum(block: &[u8]) -> Vec<u8> {
    let mut block = block.to_vec();
    layers::remove_sum(&mut block);
    block
}

fn compare(random: &mut Random, b: u16, block: &[u8]) {
    assert_eq!(
        scramble(random, b, block),
        scrambling::scramble(block, b),
        "B = {b}"
    );
    assert_eq!(
        descramble(random, b, block),
        scrambling::descramble(block, b),
        "B = {b}"
    );
}

fn compare_sums(block: &[u8]) {
    assert_eq!(add_sum(block), scrambling::replace_first(block));
    assert_eq!(remove_sum(block), scrambling::restore_first(block));
}

#[test]
fn every_b() {
    both_formats(21, |format, random| {
        for b in 0..B_VALUES {
            let block = random.bits(format.user_bits());
            compare(random, b, &block);
        }
    });
}

#[test]
fn random_blocks() {
    both_formats(22, |format, random| {
        for _ in 0..5000 {
            let block = random.bits(format.user_bits());
            let b = random.number() as u16;
            compare(random, b, &block);
            compare_sums(&block);
        }
    });
}

#[test]
fn patterned_blocks() {
    both_formats(23, |format, random| {
        for block in patterns(format.user_bits()) {
            for b in [0, 1, B_VALUES - 1, random.number() as u16] {
                compare(random, b, &block);
            }
            compare_sums(&block);
        }
    });
}

#[test]
fn other_lengths() {
    let mut random = Random::new(24);
    for length in 0..=1100 {
        let block = random.bits(length);
        let b = random.below(B_VALUES.into()) as u16;
        compare(&mut random, b, &block);
    }
    for blocks in 1..=100 {
        for _ in 0..20 {
            compare_sums(&random.bits(10 * blocks));
        }
    }
}

/// What the telegrams of Appendix B carry, both ways.
#[test]
fn appendix_b_contents() {
    let mut random = Random::new(25);
    for row in appendix_b() {
        let (format, telegram) = (row.format(), row.telegram_bits());
        let b = b_of(&telegram, format);
        let scrambled = scrambled_bits_of(&telegram, format).expect("words of the table");
        let user = user_bits_of(&telegram, format).expect("words of the table");
        for block in [&scrambled, &user, &row.filled_user_bits()] {
            compare(&mut random, b, block);
            compare_sums(block);
        }
        assert_eq!(
            remove_sum(&descramble(&mut random, b, &scrambled)),
            user,
            "row {}",
            row.number
        );
        assert_eq!(
            scramble(&mut random, b, &add_sum(&user)),
            scrambled,
            "row {}",
            row.number
        );
    }
}
