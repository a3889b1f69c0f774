//! The long block without a pair: refusal 4, the output untouched.

use second::appendices::block_without_a_pair;
use second::conditions::Course;
use second::encode::{first_pair_skipping, PAIRS};
use second::format::Format;
use second::{encode, encode_skipping, Refusal};

const NO_PAIR: Refusal = Refusal::NoPair { tried: PAIRS };

#[test]
fn skipping() {
    let mut output = [9; 1030];
    let block = block_without_a_pair();
    assert_eq!(encode_skipping(&block, &mut output), Err(NO_PAIR));
    assert_eq!(output, [9; 1030]);
    assert_eq!(PAIRS, 4096 * 1024);
    assert_eq!(NO_PAIR.to_string(), "refused 4 tried 4194304");
}

/// Nor is there a pair on the strip, as document 01 had it.
#[test]
fn on_the_strip() {
    let block = block_without_a_pair();
    assert_eq!(
        first_pair_skipping(&block, Format::Long, Course::Strip),
        None
    );
}

/// All 4,194,304 pairs, each formed and tested.
#[test]
fn every_pair() {
    let mut output = [9; 1030];
    let block = block_without_a_pair();
    assert_eq!(encode(&block, &mut output), Err(NO_PAIR));
    assert_eq!(output, [9; 1030]);
}
