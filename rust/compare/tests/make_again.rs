//! The round of an inspector (document 02, No. 11): a telegram made again from a
//! reading and its user bits, cut at the reading's turn and flipped if it says
//! so, is the window's first n bits.

use compare::calls::{make_again, read, read_both, read_well_formed, search, Tally};
use compare::telegrams::*;
use second::appendices::appendix_b;
use second::format::{Format, FORMATS};
use second::random::Random;
use second::telegram::cut;

/// A proper telegram from Appendix B, of each format.
fn printed() -> Vec<Vec<u8>> {
    let rows = appendix_b();
    let row = |format| rows.iter().find(|row| row.format() == format);
    FORMATS
        .map(|format| row(format).unwrap().telegram_bits())
        .to_vec()
}

/// Windows of proper telegrams at every turn, both ways up, by both window calls.
#[test]
fn every_turn_of_proper_telegrams() {
    let mut random = Random::new(141);
    let mut telegrams = printed();
    for format in FORMATS {
        telegrams.extend(random_telegrams(&mut random, format, 2));
    }
    let mut windows = 0;
    for telegram in telegrams {
        let format = Format::of_telegram(telegram.len()).unwrap();
        for turn in 0..telegram.len() {
            for flipped in [false, true] {
                let window = cut(&telegram, turn, format.window_bits(), flipped);
                for read in [read, read_well_formed] {
                    let (answer, user) = read(&mut random, &window, format.user_bits());
                    let reading = answer.unwrap();
                    assert_eq!((reading.turn, reading.flipped), (turn, flipped));
                    let again = make_again(&mut random, &window, &reading, &user);
                    assert_eq!(again, telegram);
                }
                windows += 1;
            }
        }
    }
    println!("{windows} windows of proper telegrams made again, from both window calls");
}

/// The same of telegrams that are well-formed and not proper, by
/// read_well_formed; read refuses them.
#[test]
fn every_turn_of_telegrams_that_are_not_proper() {
    let mut random = Random::new(142);
    let (mut windows, mut refused) = (0, Tally::default());
    for telegram in kept_not_proper().iter().step_by(7) {
        let format = Format::of_telegram(telegram.len()).unwrap();
        for turn in 0..telegram.len() {
            for flipped in [false, true] {
                let window = cut(telegram, turn, format.window_bits(), flipped);
                let room = format.user_bits();
                let (answer, user) = read_well_formed(&mut random, &window, room);
                let reading = answer.unwrap();
                assert_eq!((reading.turn, reading.flipped), (turn, flipped));
                let again = make_again(&mut random, &window, &reading, &user);
                assert_eq!(again, *telegram);
                if turn % 11 == 0 {
                    refused.add(read(&mut random, &window, room).0);
                }
                windows += 1;
            }
        }
    }
    println!("{windows} windows of telegrams that are not proper made again");
    refused.print("of them read, by number");
    assert_eq!(refused.numbers(), [10, 11, 12]);
}

/// From captures, by the search's reading: of both formats and both ways up, at
/// place 0 and after other bits.
#[test]
fn captures() {
    let mut random = Random::new(143);
    let mut made = 0;
    for format in FORMATS {
        for telegram in random_telegrams(&mut random, format, 6) {
            for round in 0..24 {
                let (turn, flipped) = (random.below(telegram.len()), round % 2 == 1);
                let length = format.window_bits() + random.below(700);
                let noise = [0, random.below(2500)][usize::from(round % 3 > 0)];
                let heard = cut(&telegram, turn, length, flipped);
                let capture = [random.bits(noise), heard].concat();
                let found = search(&mut random, &capture).unwrap();
                assert_eq!(found.reading.format, format);
                assert_eq!(found.reading.flipped, flipped);
                let window = &capture[found.place..][..format.window_bits()];
                let again = make_again(&mut random, window, &found.reading, &found.user);
                assert_eq!(again, telegram);
                made += 1;
            }
        }
    }
    println!("{made} telegrams made again from captures");
}

/// What two readings of one box make is one telegram, wherever the windows begin.
#[test]
fn two_windows_of_one_telegram() {
    let mut random = Random::new(144);
    let mut telegrams = kept_not_proper();
    for format in FORMATS {
        telegrams.extend(random_telegrams(&mut random, format, 3));
    }
    for telegram in telegrams {
        let format = Format::of_telegram(telegram.len()).unwrap();
        let mut pairs = Vec::new();
        for _ in 0..4 {
            let (turn, flipped) = (random.below(telegram.len()), random.below(2) == 1);
            let window = cut(&telegram, turn, format.window_bits(), flipped);
            let [_, answer] = read_both(&mut random, &window, format.user_bits());
            let reading = answer.unwrap();
            pairs.push((reading.b, reading.esb));
        }
        pairs.dedup();
        assert_eq!(pairs.len(), 1);
    }
}
