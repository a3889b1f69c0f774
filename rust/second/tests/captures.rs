//! Searching captures.

use second::appendices::well_formed_not_proper;
use second::format::{Format, FORMATS};
use second::made::telegram_of;
use second::random::Random;
use second::telegram::cut;
use second::Refusal::Number;
use second::{check, read, read_well_formed, search, stretch, CAPTURE_LIMIT};

#[test]
fn first_place() {
    let mut random = Random::new(18);
    for format in FORMATS {
        let user = random.bits(format.user_bits());
        let telegram = telegram_of(&user);
        for (noise, length, flipped) in [(0, 0, false), (1, 5, true), (777, 900, false)] {
            let turn = random.below(telegram.len());
            let heard = cut(&telegram, turn, format.window_bits() + length, flipped);
            let mut front = random.bits(noise);
            // The bit before the window is wrong, so no earlier place accepts.
            if let Some(last) = front.last_mut() {
                *last = 1 - cut(&telegram, turn + telegram.len() - 1, 1, flipped)[0];
            }
            let capture = [front, heard].concat();
            let found = search(&capture).unwrap();
            assert_eq!((found.place, found.reading.turn), (noise, turn));
            assert_eq!(found.reading.format, format);
            assert_eq!(found.reading.flipped, flipped);
            assert_eq!(found.user, user);
            let part = stretch(&capture);
            assert_eq!(part.as_ptr(), capture[noise..].as_ptr());
            assert_eq!(part.len(), format.window_bits());
            let cut_short = &capture[..noise + format.window_bits() - 1];
            assert_eq!(search(cut_short), Err(Number(13)));
            assert!(stretch(cut_short).is_empty());
        }
    }
}

/// A short telegram that goes on for longer than a long window is short.
#[test]
fn short_going_round() {
    let telegram = telegram_of(&Random::new(19).bits(210));
    let capture = cut(&telegram, 40, CAPTURE_LIMIT, false);
    let found = search(&capture).unwrap();
    assert_eq!(found.reading.format, Format::Short);
    assert_eq!((found.place, found.reading.turn), (0, 40));
}

/// The earlier place wins, whatever its format.
#[test]
fn earlier_place() {
    let mut random = Random::new(20);
    let long = cut(&telegram_of(&random.bits(830)), 0, 1100, false);
    let short = cut(&telegram_of(&random.bits(210)), 0, 462, false);
    let found = search(&[short.clone(), long.clone()].concat()).unwrap();
    assert_eq!((found.place, found.reading.format), (0, Format::Short));
    let found = search(&[long, short].concat()).unwrap();
    assert_eq!((found.place, found.reading.format), (0, Format::Long));
}

#[test]
fn noise() {
    let mut random = Random::new(21);
    assert_eq!(search(&random.bits(CAPTURE_LIMIT)), Err(Number(13)));
    assert_eq!(search(&random.bits(461)), Err(Number(13)));
    assert!(stretch(&random.bits(CAPTURE_LIMIT + 1)).is_empty());
    assert!(stretch(&[2; 500]).is_empty());
}

/// The search follows read (document 02, No. 2): a window of a telegram that is
/// well-formed and not proper is not found, though read_well_formed reads it.
#[test]
fn not_proper() {
    for telegram in well_formed_not_proper() {
        let format = Format::of_telegram(telegram.len()).unwrap();
        let window = cut(&telegram, 21, format.window_bits(), true);
        assert_eq!(search(&window), Err(Number(13)));
        assert!(stretch(&window).is_empty());
        let mut output = [9; 830];
        let refusal = check(&telegram).unwrap_err();
        assert_eq!(read(&window, &mut output), Err(refusal));
        assert!(read_well_formed(&window, &mut output).is_ok());
    }
}

/// A window that read refuses before one that it accepts, of each format.
#[test]
fn not_proper_before_proper() {
    let mut random = Random::new(22);
    for telegram in well_formed_not_proper().iter().step_by(3) {
        let refused = cut(telegram, 100, telegram.len() + 150, false);
        for format in FORMATS {
            let user = random.bits(format.user_bits());
            let mut accepted = cut(&telegram_of(&user), 4, 1 + format.window_bits(), true);
            accepted[0] ^= 1;
            let found = search(&[&refused[..], &accepted].concat()).unwrap();
            assert_eq!(found.place, refused.len() + 1);
            assert_eq!((found.reading.format, found.reading.turn), (format, 5));
            assert_eq!(found.user, user);
        }
    }
}
