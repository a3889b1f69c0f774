//! Refusal 9 (document 02, No. 13): what is wrong with the first bad word, and
//! its index, on telegrams in which they are built in.

use second::bad_words::{bad_telegrams, bad_words, every_word, wanted, BadTelegram, BadWord};
use second::bits::flip;
use second::conditions::failing_conditions;
use second::cyclic::check_bits;
use second::format::{CHECK_BITS, FORMATS};
use second::random::Random;
use second::telegram::{self, all_words_valid, control, cut, well_formed, CONTROL};
use second::words::Kind;
use second::Refusal::{self, Number, Word};
use second::{check, make, read, read_well_formed};
use std::collections::BTreeSet;
use std::sync::LazyLock;

static TELEGRAMS: LazyLock<Vec<BadTelegram>> =
    LazyLock::new(|| bad_telegrams(&mut Random::new(151)));

/// The refusals of both window calls, which keep the output.
fn read_refusals(window: &[u8], room: usize) -> [Refusal; 2] {
    let mut output = vec![9; room];
    let refusals = [read, read_well_formed].map(|read| read(window, &mut output).unwrap_err());
    assert_eq!(output, vec![9; room]);
    refusals
}

/// They are what they are to be: one, two and three bad words, the first of every
/// kind at every index that has so many words from it on.
#[test]
fn what_is_made() {
    for format in FORMATS {
        let mut telegrams = TELEGRAMS.clone();
        telegrams.retain(|telegram| telegram.format == format);
        for BadTelegram { bits, bad, .. } in &telegrams {
            let (head, check) = bits.split_at(format.telegram_bits() - CHECK_BITS);
            assert_eq!(check_bits(head, format), check);
            assert_eq!(control(bits, format), CONTROL);
            assert_eq!(bad_words(bits), *bad);
            assert!(all_words_valid(&bits[..11 * bad[0].0]));
            assert!(!well_formed(bits, format));
        }
        for count in 1..=3 {
            let had: BTreeSet<BadWord> = telegrams
                .iter()
                .filter(|telegram| telegram.bad.len() == count)
                .map(|telegram| telegram.bad[0])
                .collect();
            let last = format.words() - count;
            let mut can_be_had = every_word(format, 0);
            can_be_had.retain(|&(index, _)| index <= last);
            assert_eq!(had, can_be_had);
        }
        // the later ones are of other kinds than the first
        assert!(telegrams
            .iter()
            .all(|t| t.bad[1..].iter().all(|&(_, kind)| kind != t.bad[0].1)));
        let lists = wanted(&mut Random::new(1), format).len();
        assert_eq!(telegrams.len(), lists);
        println!("{}: {lists} telegrams with bad words", format.name());
    }
}

/// Check, and both window calls at some turns, upright and flipped.
#[test]
fn the_first_bad_word_is_named() {
    let mut random = Random::new(152);
    for telegram in TELEGRAMS.iter() {
        let (format, refusal) = (telegram.format, telegram.refusal());
        let n = format.telegram_bits();
        assert_eq!(check(&telegram.bits), Err(refusal));
        for turn in [0, 1, 10, 11, n - 1, random.below(n)] {
            for flipped in [false, true] {
                let window = cut(&telegram.bits, turn, format.window_bits(), flipped);
                let refusals = read_refusals(&window, format.user_bits());
                assert_eq!(refusals, [refusal; 2], "{turn} {flipped}");
            }
        }
    }
}

/// Every turn of some.
#[test]
fn at_every_turn() {
    for telegram in TELEGRAMS.iter().step_by(211) {
        let (format, refusal) = (telegram.format, telegram.refusal());
        for turn in 0..format.telegram_bits() {
            let window = cut(&telegram.bits, turn, format.window_bits(), turn % 2 == 1);
            assert_eq!(read_refusals(&window, 830), [refusal; 2], "{turn}");
        }
    }
}

/// Made of a block whose shaped data is in the table: every kind at each of the
/// last ten indices.
#[test]
fn made() {
    for format in FORMATS {
        let mut named = BTreeSet::new();
        for telegram in TELEGRAMS.iter().filter(|t| t.format == format) {
            let made_of = telegram.made_of();
            assert_eq!(made_of.is_some(), telegram.bad[0].0 >= format.blocks());
            let Some((block, b, esb)) = made_of else {
                continue;
            };
            assert_eq!(telegram::make(&block, b, esb, format), telegram.bits);
            let mut output = vec![9; format.telegram_bits()];
            let refused = make(&block, b.into(), esb.into(), &mut output);
            assert_eq!(refused, Err(telegram.refusal()));
            assert!(output.iter().all(|&byte| byte == 9));
            named.insert(telegram.bad[0]);
        }
        assert_eq!(named, every_word(format, format.blocks()));
    }
}

/// A lower number comes first, and a condition that fails after.
#[test]
fn the_order_of_the_refusals() {
    let mut random = Random::new(153);
    let mut failing = 0;
    for telegram in TELEGRAMS.iter() {
        let (format, bits) = (telegram.format, &telegram.bits);
        let (n, l, m) = (bits.len(), format.window_bits(), format.user_bits());
        failing += usize::from(failing_conditions(bits, format).next().is_some());
        let turn = random.below(n);
        let window = cut(bits, turn, l, false);
        assert_eq!(read_refusals(&window[1..], m), [Number(1); 2]);
        assert_eq!(read_refusals(&window, m - 1), [Number(3); 2]);
        let mut damaged = bits.clone();
        damaged[n - 1 - random.below(CHECK_BITS)] ^= 1;
        assert_eq!(check(&damaged), Err(Number(6)));
        let window = cut(&damaged, turn, l, true);
        assert_eq!(read_refusals(&window, m), [Number(6); 2]);
        assert_eq!(
            check(&cut(bits, 1 + random.below(n - 1), n, false)),
            Err(Number(7))
        );
        assert_eq!(check(&flip(bits)), Err(Number(8)));
        let mut window = cut(bits, turn, l, true);
        window[l - 1] ^= 1;
        assert_eq!(read_refusals(&window, m), [Number(5); 2]);
        window[0] = 2;
        assert_eq!(read_refusals(&window, m), [Number(2); 2]);
    }
    assert!(failing > 0);
}

#[test]
fn what_is_displayed() {
    let line = |kind, index| Word { kind, index }.to_string();
    assert_eq!(line(Kind::Group250, 0), "refused 9 kind 250 word 0");
    assert_eq!(line(Kind::Group20, 92), "refused 9 kind 20 word 92");
    assert_eq!(line(Kind::Other, 30), "refused 9 kind other word 30");
    assert_eq!(Number(27).to_string(), "refused 27");
    assert_eq!(
        Word {
            kind: Kind::Other,
            index: 3
        }
        .number(),
        9
    );
}
