//! The search of a capture follows read (document 02, No. 2): windows of
//! telegrams that are well-formed and not proper are passed over.

use compare::calls::{read_both, search};
use compare::telegrams::*;
use second::format::{Format, FORMATS};
use second::random::Random;
use second::telegram::cut;
use second::Refusal::Number;

/// A list, and after it a window of a proper telegram, the bit before which is
/// not the telegram's: the capture, the window's place and its turn.
fn then_accepted(random: &mut Random, front: &[u8], format: Format) -> (Vec<u8>, usize, usize) {
    let telegram = random_telegram(random, format);
    let (before, flipped) = (random.below(telegram.len() - 1), random.below(2) == 1);
    let mut accepted = cut(&telegram, before, 1 + format.window_bits(), flipped);
    accepted[0] ^= 1;
    let capture = [front, &accepted].concat();
    (capture, front.len() + 1, before + 1)
}

/// A capture whose only window is well-formed and not proper: refusal 13, while
/// read_well_formed reads that window. The same with bits around it.
#[test]
fn only_a_window_that_is_not_proper() {
    let mut random = Random::new(111);
    for telegram in kept_not_proper() {
        let format = Format::of_telegram(telegram.len()).unwrap();
        let turn = random.below(telegram.len());
        for flipped in [false, true] {
            let window = cut(&telegram, turn, format.window_bits(), flipped);
            assert_eq!(search(&mut random, &window), Err(Number(13)));
            let [proper, well_formed] = read_both(&mut random, &window, 830);
            assert!(matches!(proper, Err(Number(10..=12))));
            assert_eq!(well_formed.map(|reading| reading.turn), Ok(turn));
            let capture = [random.bits(300), window, random.bits(300)].concat();
            assert_eq!(search(&mut random, &capture), Err(Number(13)));
        }
    }
}

/// A window that is refused so before one that is accepted, of each format: the
/// place of the accepted one.
#[test]
fn a_window_that_is_not_proper_before_one_that_is() {
    let mut random = Random::new(112);
    for telegram in kept_not_proper() {
        for format in FORMATS {
            let length = telegram.len() + 121 + random.below(60);
            let front = cut(&telegram, random.below(telegram.len()), length, false);
            let (capture, place, turn) = then_accepted(&mut random, &front, format);
            let found = search(&mut random, &capture).unwrap();
            assert_eq!((found.place, found.reading.turn), (place, turn));
            assert_eq!(found.reading.format, format);
        }
    }
}

/// Such a telegram going round, and a proper one after it.
#[test]
fn going_round() {
    let mut random = Random::new(113);
    let telegrams = kept_not_proper();
    for format in FORMATS {
        let telegrams = telegrams
            .iter()
            .filter(|t| t.len() == format.telegram_bits());
        for telegram in telegrams.step_by(9) {
            let front = cut(telegram, 3, 1900, true);
            assert_eq!(search(&mut random, &front), Err(Number(13)));
            let (capture, place, turn) = then_accepted(&mut random, &front, format);
            let found = search(&mut random, &capture).unwrap();
            assert_eq!((found.place, found.reading.turn), (place, turn));
        }
    }
}
