//! Making a telegram of a block, B and esb (document 02, No. 11). What is said of
//! a word that is not in the table is in bad_words.rs too.

use second::appendices::{appendix_b, only_the_ring_refuses, well_formed_not_proper};
use second::bad_words::bad_words;
use second::format::{Format, FORMATS};
use second::made::encoded;
use second::random::Random;
use second::read::user_bits_of;
use second::telegram::{self, b_of, cut, esb_of, well_formed};
use second::Refusal::{self, Number, Word};
use second::{check, make, read, read_well_formed, search};

/// The answer, and the whole output, which held nines.
fn lent(block: &[u8], b: u64, esb: u64, room: usize) -> (Result<Format, Refusal>, Vec<u8>) {
    let mut output = vec![9; room];
    let answer = make(block, b, esb, &mut output);
    (answer, output)
}

/// The telegram, made into an output that has no more room than it needs.
fn made(block: &[u8], b: u16, esb: u16) -> Vec<u8> {
    let n = Format::of_block(block.len()).unwrap().telegram_bits();
    let (answer, output) = lent(block, b.into(), esb.into(), n);
    assert!(answer.is_ok());
    output
}

/// Well-formed telegrams: those of Appendix B, those that are not proper, and
/// some of random blocks.
fn telegrams() -> Vec<Vec<u8>> {
    let mut random = Random::new(131);
    let mut telegrams: Vec<Vec<u8>> = appendix_b().iter().map(|row| row.telegram_bits()).collect();
    telegrams.extend(well_formed_not_proper());
    telegrams.extend(only_the_ring_refuses());
    for format in FORMATS {
        for _ in 0..4 {
            telegrams.push(encoded(&random.bits(format.user_bits())).1);
        }
    }
    telegrams
}

/// Each from its own fields; an output's tail is kept.
#[test]
fn from_the_fields() {
    for telegram in telegrams() {
        let format = Format::of_telegram(telegram.len()).unwrap();
        let user = user_bits_of(&telegram, format).unwrap();
        let (b, esb) = (b_of(&telegram, format), esb_of(&telegram, format));
        for spare in [0, 1, 7] {
            let (answer, output) = lent(&user, b.into(), esb.into(), telegram.len() + spare);
            assert_eq!(answer, Ok(format));
            assert_eq!(output, [&telegram[..], &vec![9; spare]].concat());
        }
    }
}

/// Made again from a reading, the telegram turned and flipped as it says gives
/// the window's first n bits: by each window call that reads it, and the search.
#[test]
fn from_a_reading() {
    for telegram in telegrams() {
        let format = Format::of_telegram(telegram.len()).unwrap();
        let n = format.telegram_bits();
        let proper = check(&telegram).is_ok();
        for turn in (0..n).step_by(13) {
            for flipped in [false, true] {
                let window = cut(&telegram, turn, format.window_bits(), flipped);
                for (read, reads) in [
                    (read as fn(&[u8], &mut [u8]) -> _, proper),
                    (read_well_formed, true),
                ] {
                    let mut user = vec![9; format.user_bits()];
                    let answer = read(&window, &mut user);
                    assert_eq!(answer.is_ok(), reads);
                    if let Ok(reading) = answer {
                        let again = made(&user, reading.b, reading.esb);
                        let turned = cut(&again, reading.turn, n, reading.flipped);
                        assert_eq!(turned, window[..n]);
                    }
                }
                let found = search(&window);
                assert_eq!(found.is_ok(), proper);
                if let Ok(found) = found {
                    let again = made(&found.user, found.reading.b, found.reading.esb);
                    let turned = cut(&again, found.reading.turn, n, found.reading.flipped);
                    assert_eq!(turned, window[..n]);
                }
            }
        }
    }
}

/// Any pair: what is made is well-formed, and where there is none a word is not
/// in the table, and the first such word is named. What is made may be proper or
/// not.
#[test]
fn random_pairs() {
    let mut random = Random::new(132);
    for format in FORMATS {
        let (pairs, mut seen) = (20_000, [0; 13]);
        for _ in 0..pairs {
            let user = random.bits(format.user_bits());
            let (b, esb) = (random.below(4096) as u16, random.below(1024) as u16);
            let (answer, output) = lent(&user, b.into(), esb.into(), format.telegram_bits());
            let formed = telegram::make(&user, b, esb, format);
            let number = if well_formed(&formed, format) {
                assert_eq!((answer, &output), (Ok(format), &formed));
                check(&output).err().map_or(0, Refusal::number)
            } else {
                let (index, kind) = bad_words(&formed)[0];
                assert!(index >= format.blocks());
                assert_eq!(answer, Err(Word { kind, index }));
                assert!(output.iter().all(|&byte| byte == 9));
                assert_eq!(check(&formed), answer);
                9
            };
            seen[usize::from(number)] += 1;
        }
        println!(
            "{pairs} random pairs, {}, by the check's number: {seen:?}",
            format.name()
        );
        assert!(seen[9] > pairs * 9 / 10 && seen[0] > 0 && seen[10] > 0);
    }
}

/// A pair of this block that makes no telegram.
fn no_pair(block: &[u8], format: Format) -> (u64, u64) {
    let esb = (0..1024).find(|&esb| !well_formed(&telegram::make(block, 18, esb, format), format));
    (18, esb.unwrap().into())
}

/// Every combination of faults: the refusal is the first, in the order 1, 2, 27,
/// 3, 9, of those that apply.
#[test]
fn the_order_of_the_refusals() {
    const ORDER: [u8; 5] = [1, 2, 27, 3, 9];
    for format in FORMATS {
        let (m, n) = (format.user_bits(), format.telegram_bits());
        let user = Random::new(133).bits(m);
        let pair = encoded(&user).0;
        for faults in 0..1 << ORDER.len() {
            let applies = |number| {
                let at = ORDER.iter().position(|&other| other == number).unwrap();
                faults >> at & 1 == 1
            };
            let mut block = user.clone();
            let (mut b, mut esb) = (u64::from(pair.b), u64::from(pair.esb));
            if applies(9) {
                (b, esb) = no_pair(&user, format);
            }
            if applies(27) {
                esb = 1024;
            }
            if applies(2) {
                block[m - 1] = 2;
            }
            if applies(1) {
                block.remove(0);
            }
            let (answer, output) = lent(&block, b, esb, if applies(3) { n - 1 } else { n });
            let first = ORDER.into_iter().find(|&number| applies(number));
            assert_eq!(answer.err().map(Refusal::number), first, "{faults:b}");
            assert!(answer.is_ok() || output.iter().all(|&byte| byte == 9));
        }
    }
}

/// Numbers up to the limits and over them, also those of which the lowest bits
/// alone would be a pair that makes a telegram.
#[test]
fn numbers_too_large() {
    for format in FORMATS {
        let n = format.telegram_bits();
        let user = Random::new(134).bits(format.user_bits());
        let pair = encoded(&user).0;
        let (b, esb) = (u64::from(pair.b), u64::from(pair.esb));
        assert_eq!(lent(&user, b, esb, n).0, Ok(format));
        assert_ne!(lent(&user, 4095, esb, n).0, Err(Number(27)));
        assert_ne!(lent(&user, b, 1023, n).0, Err(Number(27)));
        for large in [4096, u64::from(u32::MAX), 1 << 63, u64::MAX] {
            assert_eq!(lent(&user, large, esb, n).0, Err(Number(27)));
            assert_eq!(lent(&user, b, large, n).0, Err(Number(27)));
        }
        assert_eq!(lent(&user, b, 1024, n).0, Err(Number(27)));
        for shift in 12..64 {
            assert_eq!(lent(&user, b | 1 << shift, esb, n).0, Err(Number(27)));
            assert_eq!(lent(&user, b, esb | 1 << (shift - 2), n).0, Err(Number(27)));
        }
        assert_eq!(lent(&user, b, esb | 1 << 63, n).0, Err(Number(27)));
    }
}

#[test]
fn lengths() {
    for length in [0, 1, 209, 211, 829, 831, 1023] {
        assert_eq!(lent(&vec![2; length], 4096, 0, 0).0, Err(Number(1)));
    }
}
