//! What is wrong with which word (document 02, No. 13): telegrams in which bad
//! words are built in, of every kind at every index, to check, to both window
//! calls and to make. Both programs name the first bad word, whatever the turn
//! and the way up, and keep every byte of the output.

use compare::calls::{check, make, read_both, search, Tally};
use compare::telegrams::*;
use second::bad_words::{bad_telegrams, bad_words, every_word, word_of_kind, BadTelegram};
use second::bits::{bits_of, flip, turn_left};
use second::conditions::failing_conditions;
use second::format::{Format, CHECK_BITS, FORMATS};
use second::random::Random;
use second::telegram::cut;
use second::words::{wrong, KINDS};
use second::Refusal::{self, Number, Word};
use std::collections::BTreeSet;
use std::sync::LazyLock;

static TELEGRAMS: LazyLock<Vec<BadTelegram>> =
    LazyLock::new(|| bad_telegrams(&mut Random::new(161)));

/// The telegrams of a format.
fn telegrams(format: Format) -> impl Iterator<Item = &'static BadTelegram> {
    let of_format = move |telegram: &&BadTelegram| telegram.format == format;
    TELEGRAMS.iter().filter(of_format)
}

/// Compares a window that both calls refuse so, lent this room.
fn refuse_window(random: &mut Random, window: &[u8], room: usize, refusal: Refusal) {
    let answers = read_both(random, window, room);
    assert_eq!(answers, [Err(refusal), Err(refusal)]);
}

/// Compares the window cut at a turn, upright or flipped: it is refused as the
/// telegram says. The answer is tallied.
fn refuse_cut(
    tally: &mut Tally,
    random: &mut Random,
    telegram: &BadTelegram,
    turn: usize,
    flipped: bool,
) {
    let format = telegram.format;
    let window = cut(&telegram.bits, turn, format.window_bits(), flipped);
    let room = format.user_bits() + random.below(9);
    let answers = read_both(random, &window, room);
    let refused = Err(telegram.refusal());
    assert_eq!(answers, [refused; 2], "turn {turn}, flipped {flipped}");
    tally.add(answers[0]);
}

/// Each telegram as it is.
#[test]
fn checked() {
    for format in FORMATS {
        let mut tally = Tally::default();
        for telegram in telegrams(format) {
            let answer = check(&telegram.bits);
            assert_eq!(answer, Err(telegram.refusal()));
            tally.add(answer);
        }
        tally.print(&format!(
            "{} telegrams with bad words checked",
            format.name()
        ));
        assert_eq!(tally.words(), every_word(format, 0));
    }
}

/// Each telegram at the turns about which a count could go wrong, and at some
/// others.
#[test]
fn windows_at_some_turns() {
    let mut random = Random::new(162);
    for format in FORMATS {
        let mut tally = Tally::default();
        let n = format.telegram_bits();
        for telegram in telegrams(format) {
            let drawn = random.places(3, n);
            for turn in [0, 1, 10, 11, n - 1].into_iter().chain(drawn) {
                for flipped in [false, true] {
                    refuse_cut(&mut tally, &mut random, telegram, turn, flipped);
                }
            }
        }
        let name = format.name();
        tally.print(&format!(
            "windows of {name} telegrams with bad words, by each window call"
        ));
        assert_eq!(tally.words(), every_word(format, 0));
    }
}

/// Some at every turn: those with three bad words, the first of each kind at the
/// first index, in the midst of the shaped data and in the last ten words.
#[test]
fn windows_at_every_turn() {
    let mut random = Random::new(163);
    for format in FORMATS {
        let mut tally = Tally::default();
        let indices = [0, format.blocks() / 2, format.blocks() + 4];
        let some = telegrams(format)
            .filter(|t| t.bad.len() == 3 && indices.contains(&t.bad[0].0))
            // one of the two orders of the later kinds
            .step_by(2);
        for telegram in some {
            for turn in 0..format.telegram_bits() {
                for flipped in [false, true] {
                    refuse_cut(&mut tally, &mut random, telegram, turn, flipped);
                }
            }
        }
        let name = format.name();
        tally.print(&format!(
            "windows at every turn of some {name} telegrams, by each window call"
        ));
        let mut expected = every_word(format, 0);
        expected.retain(|(index, _)| indices.contains(index));
        assert_eq!(tally.words(), expected);
    }
}

/// Each of the 1,024 words that are not in the table, put into the shaped data of
/// a telegram of each format: check and both window calls give its kind.
#[test]
fn every_bad_word() {
    let mut random = Random::new(169);
    for format in FORMATS {
        let mut tally = Tally::default();
        let telegram = random_telegram(&mut random, format);
        for (word, kind) in (0..2048).filter_map(|word| Some((word, wrong(word)?))) {
            let index = random.below(format.blocks());
            let refused = Word { kind, index };
            let other = with_word(&telegram, format, index, word);
            let answer = check(&other);
            assert_eq!(answer, Err(refused), "{word:011b}");
            let turn = random.below(other.len());
            let window = cut(&other, turn, format.window_bits(), word % 2 == 1);
            refuse_window(&mut random, &window, format.user_bits(), refused);
            tally.add(answer);
        }
        tally.print(&format!("bad words in a {} telegram", format.name()));
        assert_eq!(tally.total(), 1024);
        assert_eq!(tally.kinds(), BTreeSet::from(KINDS));
        assert_eq!(tally.indices(), (0..format.blocks()).collect());
    }
}

/// The search passes over their windows, and says no more than it did.
#[test]
fn searched() {
    let mut random = Random::new(170);
    for telegram in TELEGRAMS.iter().step_by(7) {
        let length = telegram.format.window_bits() + random.below(3);
        let turn = random.below(telegram.bits.len());
        let capture = cut(&telegram.bits, turn, length, length % 2 == 1);
        assert_eq!(search(&mut random, &capture), Err(Number(13)));
    }
}

/// The blocks and pairs of the telegrams whose first bad word is one of the last
/// ten: make names it, lent enough room.
#[test]
fn made() {
    let mut random = Random::new(164);
    for format in FORMATS {
        let mut tally = Tally::default();
        let n = format.telegram_bits();
        for telegram in telegrams(format) {
            let Some((block, b, esb)) = telegram.made_of() else {
                continue;
            };
            for room in [n, n + 1, n + random.below(900)] {
                let (answer, _) = make(&mut random, &block, b.into(), esb.into(), room);
                assert_eq!(answer, Err(telegram.refusal()));
                tally.add(answer);
            }
        }
        let name = format.name();
        tally.print(&format!(
            "calls of make that name one of the last ten words, {name}"
        ));
        assert_eq!(tally.words(), every_word(format, format.blocks()));
    }
}

/// Numbers below 9 stay, whatever the words are.
#[test]
fn lower_numbers_come_first() {
    let mut random = Random::new(165);
    for format in FORMATS {
        let (n, l, m) = (
            format.telegram_bits(),
            format.window_bits(),
            format.user_bits(),
        );
        for telegram in telegrams(format) {
            let bits = &telegram.bits;
            let (turn, flipped) = (random.below(n), random.below(2) == 1);
            let window = cut(bits, turn, l, flipped);
            assert_eq!(check(&bits[1..]), Err(Number(1)));
            refuse_window(&mut random, &window[1..], m, Number(1));
            let mut other = bits.clone();
            other[random.below(n)] = 2;
            assert_eq!(check(&other), Err(Number(2)));
            let mut other = window.clone();
            other[random.below(l)] = 2;
            refuse_window(&mut random, &other, m - 1, Number(2));
            let room = random.below(m);
            refuse_window(&mut random, &window, room, Number(3));
            let mut other = window.clone();
            other[l - 1 - random.below(format.extra_bits())] ^= 1;
            refuse_window(&mut random, &other, m, Number(5));
            let mut damaged = bits.clone();
            damaged[n - 1 - random.below(CHECK_BITS)] ^= 1;
            assert_eq!(check(&damaged), Err(Number(6)));
            refuse_window(&mut random, &cut(&damaged, turn, l, flipped), m, Number(6));
            let turned = turn_left(bits, 1 + random.below(n - 1));
            assert_eq!(check(&turned), Err(Number(7)));
            assert_eq!(check(&flip(bits)), Err(Number(8)));
        }
    }
}

/// So do 7 of a long window of a short telegram, and 8.
#[test]
fn no_turn_and_control_come_first() {
    let mut random = Random::new(166);
    for telegram in telegrams(Format::Short) {
        let turn = random.below(telegram.bits.len());
        let window = cut(&telegram.bits, turn, 1100, false);
        refuse_window(&mut random, &window, 830, Number(7));
    }
    for format in FORMATS {
        for telegram in telegrams(format) {
            let control = [0, 2, 3, 4, 5, 7][random.below(6)];
            let bits = bits_of(control, 3);
            let other = with_bits(&telegram.bits, format, format.shaped_bits(), &bits);
            assert!(!bad_words(&other).is_empty());
            assert_eq!(check(&other), Err(Number(8)));
            let turn = random.below(other.len());
            for flipped in [false, true] {
                let window = cut(&other, turn, format.window_bits(), flipped);
                refuse_window(&mut random, &window, 830, Number(8));
            }
        }
    }
}

/// And 1, 2, 27 and 3 of make.
#[test]
fn what_make_tests_before() {
    let mut random = Random::new(167);
    for telegram in TELEGRAMS.iter() {
        let n = telegram.format.telegram_bits();
        let Some((block, b, esb)) = telegram.made_of() else {
            continue;
        };
        let (b, esb) = (u64::from(b), u64::from(esb));
        let mut bytes = block.clone();
        bytes[random.below(block.len())] = 2;
        for (block, b, esb, room, number) in [
            (&block[1..], b, esb, n, 1),
            (&bytes, b, esb, n, 2),
            (&block, b | 4096, esb, n, 27),
            (&block, b, esb | 1024, n, 27),
            (&block, b, esb, n - 1, 3),
            (&block, b, esb, 0, 3),
        ] {
            let (answer, _) = make(&mut random, block, b, esb, room);
            assert_eq!(answer, Err(Number(number)));
        }
    }
}

/// A condition that fails comes after: the kept telegrams that are not proper,
/// with a bad word of each kind and the check bits put right again. Of some long
/// ones all of conditions 2, 3 and 4 fail still, of some a single one. Condition 4
/// of a short one fails only where a whole ring is valid, which a new word breaks.
#[test]
fn conditions_come_after() {
    let mut random = Random::new(168);
    let mut failing = BTreeSet::new();
    let mut tally = Tally::default();
    for telegram in kept_not_proper() {
        let format = Format::of_telegram(telegram.len()).unwrap();
        for kind in KINDS {
            for index in random.places(12, format.blocks()) {
                let word = word_of_kind(&mut random, kind);
                let other = with_word(&telegram, format, index, word);
                let numbers = failing_conditions(&other, format).map(Refusal::number);
                let numbers: Vec<u8> = numbers.collect();
                if numbers.is_empty() {
                    continue;
                }
                failing.insert((format.name(), numbers));
                let refused = Word { kind, index };
                assert_eq!(check(&other), Err(refused));
                let turn = random.below(other.len());
                let window = cut(&other, turn, format.window_bits(), index % 2 == 1);
                refuse_window(&mut random, &window, format.user_bits(), refused);
                tally.add(check(&other));
            }
        }
    }
    tally.print("telegrams with a bad word of which a condition fails too");
    println!("the conditions that fail: {failing:?}");
    for (format, numbers) in [
        ("long", &[10][..]),
        ("long", &[11]),
        ("long", &[12]),
        ("long", &[10, 11, 12]),
        ("short", &[10]),
    ] {
        assert!(failing.contains(&(format, numbers.to_vec())), "{numbers:?}");
    }
    assert_eq!(tally.kinds(), BTreeSet::from(KINDS));
}
