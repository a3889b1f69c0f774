//! Encoding and reading back: the four points of demand 3 on some blocks, and
//! the two encoders compared.

use second::format::{Format, FORMATS};
use second::made::{encoded, telegram_of};
use second::random::Random;
use second::read::{read, read_well_formed, user_bits_of, Reading};
use second::scrambling::{descramble, replace_first, restore_first, scramble};
use second::telegram::{b_of, cut, esb_of, make, well_formed};
use second::Refusal::Number;
use second::{check, encode, encode_skipping};

/// A few blocks: zeros, ones, and some drawn.
fn blocks(format: Format, drawn: usize, seed: u64) -> Vec<Vec<u8>> {
    let mut random = Random::new(seed);
    let m = format.user_bits();
    let mut blocks = vec![vec![0; m], vec![1; m]];
    blocks.extend((0..drawn).map(|_| random.bits(m)));
    blocks
}

#[test]
fn scrambling_undone() {
    let mut random = Random::new(3);
    for format in FORMATS {
        for b in [0, 1, 16, 2048, 4095] {
            let user = random.bits(format.user_bits());
            assert_eq!(descramble(&scramble(&user, b), b), user);
            assert_eq!(scramble(&descramble(&user, b), b), user);
            assert_eq!(restore_first(&replace_first(&user)), user);
        }
    }
}

#[test]
fn fields_come_back() {
    let mut random = Random::new(4);
    for format in FORMATS {
        for _ in 0..20 {
            let user = random.bits(format.user_bits());
            let (b, esb) = (random.below(4096) as u16, random.below(1024) as u16);
            let telegram = make(&user, b, esb, format);
            assert_eq!(telegram.len(), format.telegram_bits());
            assert_eq!(
                (b_of(&telegram, format), esb_of(&telegram, format)),
                (b, esb)
            );
            let back = user_bits_of(&telegram, format);
            assert_eq!(back.is_ok(), well_formed(&telegram, format));
            assert!(back.is_err() || back == Ok(user));
        }
    }
}

#[test]
fn both_encoders_agree() {
    for format in FORMATS {
        for user in blocks(format, 6, 5) {
            let mut plain = vec![9; format.telegram_bits() + 2];
            let mut skipping = plain.clone();
            let encoded = encode(&user, &mut plain).unwrap();
            assert_eq!(encode_skipping(&user, &mut skipping), Ok(encoded));
            assert_eq!(plain, skipping);
            let (telegram, tail) = plain.split_at(format.telegram_bits());
            assert_eq!(tail, [9, 9]);
            assert_eq!(check(telegram), Ok(format));
            assert!(well_formed(telegram, format));
            assert_eq!(make(&user, encoded.b, encoded.esb, format), telegram);
            assert_eq!(
                encoded.count,
                1024 * u32::from(encoded.b) + u32::from(encoded.esb) + 1
            );
        }
    }
}

#[test]
fn every_turn_reads_back() {
    for format in FORMATS {
        for user in blocks(format, 2, 6) {
            let (encoded, telegram) = encoded(&user);
            for turn in 0..format.telegram_bits() {
                for flipped in [false, true] {
                    let window = cut(&telegram, turn, format.window_bits(), flipped);
                    let reading = Reading {
                        format,
                        b: encoded.b,
                        turn,
                        flipped,
                        esb: encoded.esb,
                    };
                    for read in [read, read_well_formed] {
                        let mut output = vec![9; format.user_bits() + 1];
                        assert_eq!(read(&window, &mut output), Ok(reading));
                        assert_eq!(output.pop(), Some(9));
                        assert_eq!(output, user);
                    }
                }
            }
        }
    }
}

#[test]
fn short_windows_of_long_telegrams() {
    let mut random = Random::new(7);
    for user in blocks(Format::Long, 4, 8) {
        let telegram = telegram_of(&user);
        for turn in 0..telegram.len() {
            let mut window = cut(&telegram, turn, 462, turn % 2 == 1);
            let mut output = [9; 210];
            assert_eq!(read(&window, &mut output), Err(Number(5)));
            let changes = random.below(15);
            for place in random.places(changes, 462) {
                window[place] ^= 1;
            }
            assert_eq!(read(&window, &mut output), Err(Number(5)));
            assert_eq!(read(&window, &mut output[..209]), Err(Number(3)));
            assert_eq!(output, [9; 210]);
        }
    }
}

#[test]
fn long_windows_of_short_telegrams() {
    for user in blocks(Format::Short, 4, 9) {
        let telegram = telegram_of(&user);
        for turn in 0..telegram.len() {
            for flipped in [false, true] {
                let window = cut(&telegram, turn, 1100, flipped);
                let mut output = [9; 830];
                assert_eq!(read(&window, &mut output), Err(Number(7)));
                assert_eq!(read(&window, &mut output[..829]), Err(Number(3)));
                assert_eq!(output, [9; 830]);
            }
        }
    }
}
