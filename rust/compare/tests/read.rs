//! Reading by both window calls: what a window says, the user bits, and each
//! refusal where it is the lowest that applies. What was read is made again.

use compare::calls::{make_again, read, read_both, read_well_formed, Tally};
use compare::telegrams::*;
use compare::{burst, other_lengths, patterns};
use second::appendices::appendix_b;
use second::bits::bits_of;
use second::conditions::condition_2;
use second::format::{Format, FORMATS};
use second::random::Random;
use second::read::user_bits_of;
use second::telegram::{b_of, cut, esb_of, well_formed};
use second::words::{wrong, KINDS};
use second::Reading;
use second::Refusal::{self, Number, Word};
use std::collections::BTreeSet;

/// Room for the user bits of either format.
const ROOM: usize = 830;

/// What each of the window calls answered.
#[derive(Default)]
struct Tallies {
    proper: Tally,
    well_formed: Tally,
}

impl Tallies {
    fn add(&mut self, [proper, well_formed]: [Result<Reading, Refusal>; 2]) {
        self.proper.add(proper);
        self.well_formed.add(well_formed);
    }
}

/// Compares a window.
fn compare(tallies: &mut Tallies, random: &mut Random, window: &[u8]) {
    let room = ROOM + random.below(9);
    tallies.add(read_both(random, window, room));
}

/// Compares a window that both calls refuse so.
fn refuse_with(
    tallies: &mut Tallies,
    random: &mut Random,
    window: &[u8],
    room: usize,
    refusal: Refusal,
) {
    let answers = read_both(random, window, room);
    assert_eq!(answers, [Err(refusal), Err(refusal)]);
    tallies.add(answers);
}

/// Compares a window that both calls refuse with this number and no more.
fn refuse(tallies: &mut Tallies, random: &mut Random, window: &[u8], room: usize, number: u8) {
    refuse_with(tallies, random, window, room, Number(number));
}

fn lengths_bytes_and_room(tallies: &mut Tallies, random: &mut Random) {
    for bytes in other_lengths(random, [462, 1100]) {
        for room in [0, ROOM] {
            refuse(tallies, random, &bytes, room, 1);
        }
    }
    for format in FORMATS {
        let telegram = random_telegram(random, format);
        let m = format.user_bits();
        let window = cut(&telegram, 7, format.window_bits(), false);
        for place in 0..window.len() {
            let mut bytes = window.clone();
            bytes[place] = [2, 3, 128, 255][random.below(4)];
            refuse(tallies, random, &bytes, [0, m - 1, m][place % 3], 2);
            let mut bits = window.clone();
            bits[place] ^= 1;
            let room = random.below(m);
            refuse(tallies, random, &bits, room, 3);
        }
        for room in 0..m {
            refuse(tallies, random, &window, room, 3);
        }
        let answers = read_both(random, &window, m);
        assert!(answers.iter().all(Result::is_ok));
        tallies.add(answers);
    }
}

/// Every turn, upright and flipped.
fn every_turn(tallies: &mut Tallies, random: &mut Random) {
    let rows = appendix_b().into_iter().map(|row| row.telegram_bits());
    let mut telegrams: Vec<Vec<u8>> = rows.step_by(3).collect();
    for format in FORMATS {
        telegrams.extend(random_telegrams(random, format, 2));
    }
    for telegram in telegrams {
        let format = Format::of_telegram(telegram.len()).unwrap();
        let user = user_bits_of(&telegram, format).unwrap();
        for turn in 0..telegram.len() {
            for flipped in [false, true] {
                let window = cut(&telegram, turn, format.window_bits(), flipped);
                let room = format.user_bits() + random.below(9);
                let (answer, output) = read(random, &window, room);
                let (other, other_output) = read_well_formed(random, &window, room);
                let reading = Reading {
                    format,
                    b: b_of(&telegram, format),
                    turn,
                    flipped,
                    esb: esb_of(&telegram, format),
                };
                assert_eq!([&answer, &other], [&Ok(reading), &Ok(reading)]);
                assert_eq!(output[..user.len()], user);
                assert_eq!(other_output[..user.len()], user);
                assert_eq!(make_again(random, &window, &reading, &output), telegram);
                tallies.add([answer, other]);
            }
        }
    }
}

/// Every single change, several changes, and bursts.
fn changed(tallies: &mut Tallies, random: &mut Random, format: Format) {
    for telegram in random_telegrams(random, format, 2) {
        let (n, r) = (format.telegram_bits(), format.extra_bits());
        for flipped in [false, true] {
            let turn = random.below(n);
            let window = cut(&telegram, turn, n + r, flipped);
            for place in 0..n + r {
                let mut one = window.clone();
                one[place] ^= 1;
                let number = if place < r || place >= n { 5 } else { 6 };
                refuse(tallies, random, &one, ROOM, number);
                let mut more = window.clone();
                for other in random.places(2 + place % 7, n) {
                    more[other] ^= 1;
                    if other < r {
                        more[n + other] ^= 1;
                    }
                }
                compare(tallies, random, &more);
                let mut many = one;
                burst(random, &mut many[place..(n + r).min(place + 75)]);
                compare(tallies, random, &many);
            }
        }
    }
}

/// Short windows of long telegrams, with up to 14 bits changed.
fn short_windows_of_long(tallies: &mut Tallies, random: &mut Random) {
    for telegram in random_telegrams(random, Format::Long, 2) {
        for turn in 0..telegram.len() {
            let mut window = cut(&telegram, turn, 462, turn % 2 == 1);
            refuse(tallies, random, &window, 210, 5);
            for place in random.places(turn % 15, 462) {
                window[place] ^= 1;
            }
            refuse(tallies, random, &window, 210, 5);
        }
    }
}

/// 15 changes that make the ends agree, and all but one of them.
fn fifteen_changes(tallies: &mut Tallies, random: &mut Random) {
    for _ in 0..3 {
        let (telegram, turn) = fifteen_apart(random);
        let mut window = cut(&telegram, turn, 462, false);
        let places: Vec<usize> = (0..121)
            .filter(|&place| window[place] != window[place + 341])
            .collect();
        assert_eq!(places.len(), 15);
        for place in places {
            refuse(tallies, random, &window, 210, 5);
            window[place + 341 * random.below(2)] ^= 1;
        }
        let answers = read_both(random, &window, 210);
        assert_ne!(answers[0], Err(Number(5)));
        tallies.add(answers);
    }
}

/// Long windows of short telegrams.
fn long_windows_of_short(tallies: &mut Tallies, random: &mut Random) {
    for telegram in random_telegrams(random, Format::Short, 3) {
        for turn in 0..telegram.len() {
            for flipped in [false, true] {
                let window = cut(&telegram, turn, 1100, flipped);
                refuse(tallies, random, &window, 830, 7);
            }
        }
    }
}

/// Windows of telegrams with other control bits or words.
fn control_and_words(tallies: &mut Tallies, random: &mut Random, format: Format) {
    let telegram = random_telegram(random, format);
    let (n, at) = (format.telegram_bits(), format.shaped_bits());
    let mut others = Vec::new();
    for control in 0..8 {
        others.push(with_bits(&telegram, format, at, &bits_of(control, 3)));
    }
    for index in 0..format.blocks() {
        let word = other_word(random);
        others.push(with_word(&telegram, format, index, word));
    }
    for _ in 0..300 {
        let settings = random.bits(22);
        others.push(with_bits(&telegram, format, at + 3, &settings));
    }
    for other in others {
        for flipped in [false, true] {
            let turn = random.below(n);
            let window = cut(&other, turn, format.window_bits(), flipped);
            compare(tallies, random, &window);
        }
    }
}

/// Random and periodic bits, and windows whose ends agree: of random bits, and
/// of bits that g divides.
fn any_bits(tallies: &mut Tallies, random: &mut Random, format: Format) {
    let (n, l) = (format.telegram_bits(), format.window_bits());
    for window in patterns(l) {
        compare(tallies, random, &window);
    }
    for period in 1..=l {
        let bits = random.bits(period);
        let window: Vec<u8> = (0..l).map(|i| bits[i % period]).collect();
        compare(tallies, random, &window);
    }
    for _ in 0..500 {
        let bits = random.bits(l);
        compare(tallies, random, &bits);
        compare(tallies, random, &cut(&bits[..n], 0, l, false));
        let divided = divided(random, format);
        compare(tallies, random, &cut(&divided, 0, l, false));
    }
}

/// Windows of telegrams that are well-formed and not proper, both ways up: read refuses with the lowest of 10, 11 and 12,
/// the other call reads them, and refusal 3 comes first.
fn not_proper(tallies: &mut Tallies, random: &mut Random) {
    for telegram in kept_not_proper() {
        let format = Format::of_telegram(telegram.len()).unwrap();
        let (n, m) = (format.telegram_bits(), format.user_bits());
        let refusal = second::check(&telegram).unwrap_err();
        let user = user_bits_of(&telegram, format).unwrap();
        let drawn = random.places(8, n);
        for turn in [0, 1, n - 1].into_iter().chain(drawn) {
            for flipped in [false, true] {
                let window = cut(&telegram, turn, format.window_bits(), flipped);
                let reading = Reading {
                    format,
                    b: b_of(&telegram, format),
                    turn,
                    flipped,
                    esb: esb_of(&telegram, format),
                };
                for room in [m, m + 1 + random.below(40)] {
                    let (refused, _) = read(random, &window, room);
                    let (answer, output) = read_well_formed(random, &window, room);
                    assert_eq!([&refused, &answer], [&Err(refusal), &Ok(reading)]);
                    assert_eq!(output[..m], user);
                    assert_eq!(make_again(random, &window, &reading, &output), telegram);
                    tallies.add([refused, answer]);
                }
                let room = random.below(m);
                refuse(tallies, random, &window, room, 3);
            }
        }
    }
}

/// Windows of them with changed bits: 5 and 6 come before 10.
fn not_proper_changed(tallies: &mut Tallies, random: &mut Random) {
    for telegram in kept_not_proper() {
        let format = Format::of_telegram(telegram.len()).unwrap();
        let (n, r) = (format.telegram_bits(), format.extra_bits());
        let window = cut(&telegram, random.below(n), n + r, false);
        for place in random.places(30, n + r) {
            let mut one = window.clone();
            one[place] ^= 1;
            let number = if place < r || place >= n { 5 } else { 6 };
            refuse(tallies, random, &one, ROOM, number);
            burst(random, &mut one[place..(n + r).min(place + 75)]);
            compare(tallies, random, &one);
        }
    }
}

/// Windows of them with other control bits or another word, and the check bits
/// put right again: 8 and 9 come before 10. Of most condition 2 fails as well.
fn not_proper_and_not_well_formed(tallies: &mut Tallies, random: &mut Random) {
    let mut both = 0;
    for telegram in kept_not_proper() {
        let format = Format::of_telegram(telegram.len()).unwrap();
        let (n, l) = (format.telegram_bits(), format.window_bits());
        for control in [0, 2, 3] {
            let bits = bits_of(control, 3);
            let other = with_bits(&telegram, format, format.shaped_bits(), &bits);
            let window = cut(&other, random.below(n), l, control == 2);
            refuse(tallies, random, &window, ROOM, 8);
        }
        for _ in 0..6 {
            let (index, word) = (random.below(format.blocks()), other_word(random));
            let other = with_word(&telegram, format, index, word);
            let window = cut(&other, random.below(n), l, index % 2 == 1);
            let kind = wrong(word).unwrap();
            refuse_with(tallies, random, &window, ROOM, Word { kind, index });
            both += usize::from(!condition_2(&other, format));
        }
    }
    println!("{both} windows refused with 9 whose telegram condition 2 bars too");
    assert!(both > 100);
}

/// Windows of well-formed telegrams drawn from few words.
fn few_words_only(tallies: &mut Tallies, random: &mut Random, format: Format) {
    for i in 0..60 {
        let draw = |random: &mut Random| few_words(random, format, 1 + i % 3);
        let telegram = drawn(random, format, draw, |t| well_formed(t, format));
        let turn = random.below(telegram.len());
        let window = cut(&telegram, turn, format.window_bits(), i % 2 == 1);
        compare(tallies, random, &window);
    }
}

#[test]
fn windows() {
    let mut tallies = Tallies::default();
    let mut random = Random::new(81);
    lengths_bytes_and_room(&mut tallies, &mut random);
    every_turn(&mut tallies, &mut random);
    short_windows_of_long(&mut tallies, &mut random);
    fifteen_changes(&mut tallies, &mut random);
    long_windows_of_short(&mut tallies, &mut random);
    for format in FORMATS {
        changed(&mut tallies, &mut random, format);
        control_and_words(&mut tallies, &mut random, format);
        any_bits(&mut tallies, &mut random, format);
        few_words_only(&mut tallies, &mut random, format);
    }
    not_proper(&mut tallies, &mut random);
    not_proper_changed(&mut tallies, &mut random);
    not_proper_and_not_well_formed(&mut tallies, &mut random);
    let Tallies {
        proper,
        well_formed,
    } = tallies;
    proper.print("windows read, by number");
    well_formed.print("windows read by read_well_formed, by number");
    assert_eq!(proper.numbers(), [0, 1, 2, 3, 5, 6, 7, 8, 9, 10, 11, 12]);
    assert_eq!(well_formed.numbers(), [0, 1, 2, 3, 5, 6, 7, 8, 9]);
    for tally in [&proper, &well_formed] {
        assert_eq!(tally.kinds(), BTreeSet::from(KINDS));
        let shaped = BTreeSet::from_iter(0..Format::Long.blocks());
        assert!(tally.indices().is_superset(&shaped));
    }
    assert_eq!(proper.total(), well_formed.total());
    assert!(proper.total() >= 20_000);
}
