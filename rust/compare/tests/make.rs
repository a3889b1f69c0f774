//! Making the telegram of a block, B and esb: the answer, each refusal in its
//! order, and every byte of the output (document 02, No. 11).

use compare::calls::{check, encode_by_both, make, Tally};
use compare::faults::{self, Given};
use compare::telegrams::*;
use compare::{both_formats, patterns};
use second::appendices::appendix_b;
use second::encode_skipping;
use second::format::{Format, FORMATS};
use second::random::Random;
use second::read::user_bits_of;
use second::words::KINDS;
use second::Refusal;
use std::collections::BTreeSet;

/// Random blocks of each format, each with a random pair.
const PAIRS: usize = 30_000;

/// The telegram is made, in an output of its size and in larger ones.
fn make_exactly(random: &mut Random, good: &Given, telegram: &[u8]) {
    let n = telegram.len();
    for room in [n, n + 1, n + 7, n + random.below(900)] {
        let (answer, output) = make(random, &good.block, good.b, good.esb, room);
        assert_eq!(answer, Ok(Format::of_telegram(n).unwrap()));
        assert_eq!(output[..n], *telegram);
    }
}

/// Any pair: most give 9, with every kind and each of the last ten indices. What
/// is made is well-formed, so that check accepts it or gives 10, 11 or 12.
#[test]
fn random_pairs() {
    both_formats(121, |format, random| {
        let (mut made, mut checked) = (Tally::default(), Tally::default());
        for _ in 0..PAIRS {
            let block = random.bits(format.user_bits());
            let (b, esb) = (random.below(4096) as u64, random.below(1024) as u64);
            let n = format.telegram_bits();
            let room = n + random.below(9);
            let (answer, output) = make(random, &block, b, esb, room);
            if answer.is_ok() {
                checked.add(check(&output[..n]));
            }
            made.add(answer);
        }
        let name = format.name();
        made.print(&format!(
            "random {name} blocks with random pairs, by number"
        ));
        checked.print(&format!(
            "{name} telegrams made of them and checked, by number"
        ));
        assert_eq!(made.numbers(), [0, 9]);
        assert_eq!(made.kinds(), BTreeSet::from(KINDS));
        let last_ten = format.blocks()..format.words();
        assert_eq!(made.indices(), BTreeSet::from_iter(last_ten));
        let numbers = checked.numbers();
        assert!(numbers.contains(&0) && numbers.contains(&10));
        assert!(numbers.iter().all(|n| [0, 10, 11, 12].contains(n)));
    });
}

/// Every esb with the B of a telegram, and every B with its esb.
#[test]
fn every_esb_and_every_b() {
    both_formats(122, |format, random| {
        let mut tally = Tally::default();
        let good = Given::random(random, format);
        let n = format.telegram_bits();
        for esb in 0..1024 {
            tally.add(make(random, &good.block, good.b, esb, n).0);
        }
        for b in 0..4096 {
            tally.add(make(random, &good.block, b, good.esb, n).0);
        }
        let name = format.name();
        tally.print(&format!(
            "pairs with the B or the esb of a {name} telegram, by number"
        ));
        assert_eq!(tally.numbers(), [0, 9]);
    });
}

/// The encoder's pair of a block makes the telegram that the encoder wrote.
#[test]
fn pairs_of_the_encoder() {
    let mut random = Random::new(123);
    let rows = appendix_b();
    let rows = rows.iter().map(|row| (row.format(), row.telegram_bits()));
    let mut blocks: Vec<Vec<u8>> = rows
        .map(|(format, telegram)| user_bits_of(&telegram, format).unwrap())
        .collect();
    for format in FORMATS {
        blocks.extend((0..12).map(|_| random.bits(format.user_bits())));
        blocks.extend(patterns(format.user_bits()));
    }
    for block in blocks {
        let n = Format::of_block(block.len()).unwrap().telegram_bits();
        let (answer, telegram) = encode_by_both(&mut random, encode_skipping, &block, n);
        let pair = answer.unwrap();
        let (b, esb) = (pair.b.into(), pair.esb.into());
        make_exactly(&mut random, &Given { block, b, esb }, &telegram);
    }
}

/// The printed telegrams of Appendix B, and the kept ones that are not proper,
/// from their own fields.
#[test]
fn telegrams_from_their_fields() {
    let mut random = Random::new(124);
    let mut tally = Tally::default();
    let mut telegrams: Vec<Vec<u8>> = appendix_b().iter().map(|row| row.telegram_bits()).collect();
    telegrams.extend(kept_not_proper());
    for telegram in telegrams {
        make_exactly(&mut random, &Given::of_telegram(&telegram), &telegram);
        tally.add(check(&telegram));
    }
    tally.print("telegrams made again from their own fields, by the check's number");
    assert_eq!(tally.numbers(), [0, 10, 11, 12]);
}

/// The number of the refusal, if make refuses.
fn refused(random: &mut Random, given: &Given, room: usize) -> Option<u8> {
    let (answer, _) = make(random, &given.block, given.b, given.esb, room);
    answer.err().map(Refusal::number)
}

/// Every combination of faults. Number 9: an esb that makes no telegram of the block.
#[test]
fn combinations_of_faults() {
    let mut random = Random::new(125);
    let mut tally = Tally::default();
    for format in FORMATS {
        for _ in 0..60 {
            let good = Given::random(&mut random, format);
            let no_word = |number| {
                let mut other = good.clone();
                other.esb = no_telegram(&good.block, good.b as u16, format).into();
                (number == 9).then_some(other)
            };
            let mut compare = |random: &mut Random, given: &Given, room| {
                let (answer, _) = make(random, &given.block, given.b, given.esb, room);
                tally.add(answer);
                answer.err().map(Refusal::number)
            };
            let order = [1, 2, 27, 3, 9];
            faults::combinations(&mut random, &order, &good, no_word, &mut compare);
        }
    }
    tally.print("calls of make with every combination of faults, by number");
    assert_eq!(tally.numbers(), [0, 1, 2, 3, 9, 27]);
}

/// 4095 and 1023 are the last that are not too large.
#[test]
fn numbers_too_large() {
    both_formats(126, |format, random| {
        let n = format.telegram_bits();
        for _ in 0..5 {
            let good = Given::random(random, format);
            make_exactly(random, &good, &telegram_of(&good.block));
            for (b, esb) in [
                (4095, good.esb),
                (good.b, 1023),
                (4095, 1023),
                (0, 0),
                (4095, 0),
                (0, 1023),
            ] {
                let (answer, _) = make(random, &good.block, b, esb, n);
                assert!(matches!(answer, Ok(_) | Err(Refusal::Word { .. })));
            }
            faults::numbers_too_large(random, &good, &mut refused);
        }
    });
}

#[test]
fn outputs_that_are_too_short() {
    both_formats(127, |format, random| {
        let good = Given::random(random, format);
        faults::outputs_that_are_too_short(random, &good, &mut refused);
        make_exactly(random, &good, &telegram_of(&good.block));
    });
}

#[test]
fn bytes_that_are_no_bits() {
    both_formats(128, |format, random| {
        let good = Given::random(random, format);
        faults::bytes_that_are_no_bits(random, &good, &mut refused);
    });
}

#[test]
fn lengths_that_fit_no_format() {
    let mut random = Random::new(129);
    let good = Given::random(&mut random, Format::Long);
    faults::lengths_that_fit_no_format(&mut random, &good, &mut refused);
}
