//! Checking: proper telegrams, and each refusal where it is the lowest that
//! applies.

use compare::calls::{check, Tally};
use compare::telegrams::*;
use compare::{both_formats, burst, other_lengths, patterns};
use second::appendices::{appendix_b, only_the_ring_refuses, well_formed_not_proper};
use second::bits::{bits_of, flip, turn_left};
use second::conditions::{
    condition_3, condition_4, failing_conditions, off_step, off_step_limit, off_step_run, Course,
};
use second::cyclic::remainder_by_g;
use second::encode::first_pair;
use second::format::{Format, FORMATS};
use second::random::Random;
use second::read::user_bits_of;
use second::rings::other_steps_hold;
use second::telegram::{make, well_formed};
use second::words::{wrong, KINDS};
use second::Refusal::{self, Number, Word};
use std::collections::BTreeSet;

/// Compares some telegrams.
fn compare(tally: &mut Tally, telegrams: impl IntoIterator<Item = Vec<u8>>) {
    for telegram in telegrams {
        tally.add(check(&telegram));
    }
}

/// Compares a telegram whose answer is known.
fn expect(tally: &mut Tally, telegram: &[u8], answer: Result<Format, Refusal>) {
    assert_eq!(check(telegram), answer);
    tally.add(answer);
}

fn lengths_and_bytes(tally: &mut Tally, random: &mut Random) {
    for bytes in other_lengths(random, [341, 1023]) {
        expect(tally, &bytes, Err(Number(1)));
    }
    for format in FORMATS {
        let telegram = random_telegram(random, format);
        for place in 0..telegram.len() {
            for value in [2, 3, 128, 255] {
                let mut bytes = telegram.clone();
                bytes[place] = value;
                expect(tally, &bytes, Err(Number(2)));
            }
        }
    }
}

fn proper(tally: &mut Tally, random: &mut Random) {
    for row in appendix_b() {
        expect(tally, &row.telegram_bits(), Ok(row.format()));
    }
    for format in FORMATS {
        for telegram in random_telegrams(random, format, 30) {
            expect(tally, &telegram, Ok(format));
            expect(tally, &flip(&telegram), Err(Number(8)));
        }
    }
}

/// One to four changed bits at every place, and bursts.
fn changed(tally: &mut Tally, random: &mut Random, format: Format) {
    let telegram = random_telegram(random, format);
    let n = telegram.len();
    for place in 0..n {
        let mut one = telegram.clone();
        one[place] ^= 1;
        expect(tally, &one, Err(Number(6)));
        let mut more = one.clone();
        for other in random.places(1 + place % 4, n) {
            more[other] ^= 1;
        }
        let mut many = one;
        burst(random, &mut many[place..n.min(place + 75)]);
        compare(tally, [more, many]);
    }
}

/// Every turn but 0, and lists that g divides with any remainder by f.
fn turned(tally: &mut Tally, random: &mut Random, format: Format) {
    let telegram = random_telegram(random, format);
    let n = telegram.len();
    for turn in 1..n {
        let bits = turn_left(&telegram, turn);
        expect(tally, &bits, Err(Number(7)));
        expect(tally, &flip(&bits), Err(Number(7)));
    }
    for _ in 0..300 {
        let bits = divided(random, format);
        assert_eq!(remainder_by_g(&bits, format), 0);
        compare(tally, [bits]);
    }
    compare(tally, patterns(n));
    let short = random_telegrams(random, Format::Short, 3);
    compare(tally, short.into_iter().map(|t| [&t[..], &t, &t].concat()));
}

fn control_and_words(tally: &mut Tally, random: &mut Random, format: Format) {
    let telegram = random_telegram(random, format);
    let at = format.shaped_bits();
    for control in (0..8).filter(|&control| control != 1) {
        let other = with_bits(&telegram, format, at, &bits_of(control, 3));
        expect(tally, &other, Err(Number(8)));
        let word = other_word(random);
        expect(tally, &with_word(&other, format, 3, word), Err(Number(8)));
    }
    for index in 0..format.blocks() {
        for _ in 0..3 {
            let word = other_word(random);
            let other = with_word(&telegram, format, index, word);
            let kind = wrong(word).unwrap();
            expect(tally, &other, Err(Word { kind, index }));
        }
    }
    for esb in 0..1024 {
        compare(
            tally,
            [with_bits(&telegram, format, at + 15, &bits_of(esb, 10))],
        );
    }
    for _ in 0..500 {
        let user = random.bits(format.user_bits());
        let (b, esb) = (random.below(4096) as u16, random.below(1024) as u16);
        compare(tally, [make(&user, b, esb, format)]);
    }
}

/// Well-formed telegrams, their words drawn from all or from few.
fn conditions(tally: &mut Tally, random: &mut Random, format: Format) {
    for i in 0..120 {
        let draw = |random: &mut Random| match i % 4 {
            0 => words(random, format),
            kinds => few_words(random, format, kinds),
        };
        let telegram = drawn(random, format, draw, |t| well_formed(t, format));
        compare(tally, [telegram]);
    }
}

/// Long telegrams that one condition alone bars.
fn one_condition(tally: &mut Tally, random: &mut Random, draw: Draw, number: u8) {
    for _ in 0..20 {
        let telegram = barred(random, Format::Long, draw, number);
        expect(tally, &telegram, Err(Number(number)));
    }
}

/// The kept telegrams that are well-formed and not proper: the lowest number of
/// the conditions that fail.
fn not_proper(tally: &mut Tally) {
    for telegram in well_formed_not_proper() {
        let format = Format::of_telegram(telegram.len()).unwrap();
        assert!(well_formed(&telegram, format));
        let refusal = failing_conditions(&telegram, format).next().unwrap();
        expect(tally, &telegram, Err(refusal));
    }
}

#[test]
fn telegrams() {
    let mut tally = Tally::default();
    let mut random = Random::new(71);
    lengths_and_bytes(&mut tally, &mut random);
    proper(&mut tally, &mut random);
    for format in FORMATS {
        changed(&mut tally, &mut random, format);
        turned(&mut tally, &mut random, format);
        control_and_words(&mut tally, &mut random, format);
        conditions(&mut tally, &mut random, format);
    }
    one_condition(&mut tally, &mut random, repeating_words, 11);
    one_condition(&mut tally, &mut random, thinning_words, 12);
    not_proper(&mut tally);
    tally.print("telegrams checked, by number");
    assert_eq!(tally.numbers(), [0, 1, 2, 6, 7, 8, 9, 10, 11, 12]);
    assert_eq!(tally.kinds(), BTreeSet::from(KINDS));
    let indices = 0..Format::Long.words();
    assert_eq!(tally.indices(), BTreeSet::from_iter(indices));
    assert!(tally.total() >= 5_000);
}

/// A well-formed telegram that only condition 2 bars, and on the strip would
/// not.
fn refused_by_the_ring_alone(telegram: &[u8], format: Format) {
    assert!(well_formed(telegram, format));
    assert!(off_step(telegram, format, Course::Strip));
    assert!(!off_step(telegram, format, Course::Ring));
    assert!(condition_3(telegram, format));
    assert!(condition_4(telegram));
    assert_eq!(check(telegram), Err(Number(10)));
}

/// The rows of Appendix B whose first pair on the strip is an earlier one than
/// the printed: that one's telegram is refused now.
#[test]
fn first_pairs_on_the_strip() {
    let mut earlier = Vec::new();
    for row in appendix_b() {
        let (format, printed) = (row.format(), row.telegram_bits());
        let user = user_bits_of(&printed, format).unwrap();
        let pair = first_pair(&user, format, Course::Strip).unwrap();
        if pair.telegram == printed {
            continue;
        }
        refused_by_the_ring_alone(&pair.telegram, format);
        let over: Vec<String> = (1..=10)
            .map(|p| (p, off_step_run(&pair.telegram, p, Course::Ring)))
            .filter(|&(p, run)| run > off_step_limit(p, format))
            .map(|(p, run)| format!("{run} at p {p}"))
            .collect();
        println!(
            "row {}, {}: {} {} refused with 10, runs round the ring: {}",
            row.number,
            format.name(),
            pair.b,
            pair.esb,
            over.join(", ")
        );
        earlier.push(row.number);
    }
    assert_eq!(earlier, [1, 2, 3, 5, 8]);
}

/// The kept telegrams: of each format and for each p, a single run one word
/// over the limit, across the seam.
#[test]
fn telegrams_that_only_the_ring_refuses() {
    let kept = only_the_ring_refuses();
    assert_eq!(kept.len(), 20);
    let steps = FORMATS
        .into_iter()
        .flat_map(|format| (1..=10).map(move |p| (format, p)));
    for (telegram, (format, p)) in kept.iter().zip(steps) {
        assert_eq!(Format::of_telegram(telegram.len()), Some(format));
        refused_by_the_ring_alone(telegram, format);
        let limit = off_step_limit(p, format);
        assert_eq!(off_step_run(telegram, p, Course::Ring), limit + 1);
        assert!(off_step_run(telegram, p, Course::Strip) <= limit);
        assert!(other_steps_hold(telegram, format, p));
    }
}

#[test]
fn random_bits() {
    both_formats(72, |format, random| {
        for _ in 0..2_000 {
            assert_eq!(check(&random.bits(format.telegram_bits())), Err(Number(6)));
        }
    });
}
