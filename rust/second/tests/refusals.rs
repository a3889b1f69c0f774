//! Each refusal of check, read and read_well_formed where it is the lowest that
//! applies. More of refusal 9 is in bad_words.rs.

use second::bad_words::{bad_words, word_of_kind};
use second::bits::{bits_of, flip, number_of};
use second::conditions::{condition_2, condition_3, condition_4, failing_conditions, thinned_run};
use second::cyclic::{check_bits, remainder_by_g};
use second::format::{Format, FORMATS};
use second::made::{telegram_of, valid_words, with_bits, with_word};
use second::random::Random;
use second::telegram::{complete, cut, well_formed};
use second::words::{valid, word, KINDS};
use second::Refusal::{self, Number, Word};
use second::{check, read, read_well_formed};

fn window_of(telegram: &[u8], format: Format, turn: usize, flipped: bool) -> Vec<u8> {
    cut(telegram, turn, format.window_bits(), flipped)
}

/// The refusals of read and of read_well_formed. Both answer and write the same,
/// or the second accepts where the first gives 10, 11 or 12 (document 02, No. 2).
/// A refusal keeps every byte.
fn read_refusals(window: &[u8]) -> [Option<Refusal>; 2] {
    let mut outputs = [[9; 830]; 2];
    let proper = read(window, &mut outputs[0]);
    let well_formed = read_well_formed(window, &mut outputs[1]);
    if proper == well_formed {
        assert_eq!(outputs[0], outputs[1]);
    } else {
        assert!(well_formed.is_ok() && matches!(proper, Err(Number(10..=12))));
    }
    let refusals = [proper.err(), well_formed.err()];
    for (refusal, output) in refusals.iter().zip(outputs) {
        assert!(refusal.is_none() || output == [9; 830]);
    }
    refusals
}

#[test]
fn lengths_and_bytes() {
    for length in [0, 1, 340, 342, 1022, 1024] {
        assert_eq!(check(&vec![3; length]), Err(Number(1)));
    }
    for length in [341, 1023] {
        let mut telegram = vec![0; length];
        assert_eq!(check(&telegram), Err(Number(7)));
        telegram[length - 1] = 1;
        assert_eq!(check(&telegram), Err(Number(6)));
        telegram[0] = 255;
        assert_eq!(check(&telegram), Err(Number(2)));
    }
    for length in [462, 1100] {
        let mut output = [9; 209];
        assert_eq!(read(&vec![1; length], &mut output), Err(Number(3)));
        assert_eq!(
            read_well_formed(&vec![1; length], &mut output),
            Err(Number(3))
        );
        assert_eq!(output, [9; 209]);
    }
}

#[test]
fn ends_and_parity() {
    for format in FORMATS {
        let telegram = telegram_of(&vec![0; format.user_bits()]);
        let (n, r) = (format.telegram_bits(), format.extra_bits());
        for place in 0..n + r {
            let mut window = window_of(&telegram, format, 5, false);
            window[place] ^= 1;
            let expected = if place < r || place >= n { 5 } else { 6 };
            assert_eq!(read_refusals(&window), [Some(Number(expected)); 2]);
            if place < n {
                let mut changed = telegram.clone();
                changed[place] ^= 1;
                assert_eq!(check(&changed), Err(Number(6)));
            }
        }
    }
}

#[test]
fn turns() {
    for format in FORMATS {
        let telegram = telegram_of(&vec![1; format.user_bits()]);
        for turn in 1..format.telegram_bits() {
            let turned = cut(&telegram, turn, telegram.len(), false);
            assert_eq!(check(&turned), Err(Number(7)));
        }
        assert_eq!(check(&flip(&telegram)), Err(Number(8)));
        let three = [&telegram[..], &telegram, &telegram].concat();
        if format == Format::Short {
            assert_eq!(remainder_by_g(&three, Format::Long), 0);
            assert_eq!(check(&three), Err(Number(7)));
        }
    }
}

#[test]
fn control_bits() {
    for format in FORMATS {
        let telegram = telegram_of(&vec![0; format.user_bits()]);
        let at = format.shaped_bits();
        for control in 0..8 {
            let other = with_bits(&telegram, format, at, &bits_of(control, 3));
            let allowed = control == 1;
            assert_eq!(check(&other) == Err(Number(8)), !allowed);
            for flipped in [false, true] {
                let answers = read_refusals(&window_of(&other, format, 77, flipped));
                // Upright, 1, 1, 0 is flipped into 0, 0, 1.
                let refused = answers == [Some(Number(8)); 2];
                assert_eq!(refused, control != 1 && control != 6);
            }
        }
    }
}

/// A word outside the table, in the shaped data and in the last ten words.
#[test]
fn words() {
    let mut random = Random::new(16);
    for format in FORMATS {
        let telegram = telegram_of(&random.bits(format.user_bits()));
        for index in 0..format.blocks() {
            for kind in KINDS {
                let word = word_of_kind(&mut random, kind);
                let other = with_word(&telegram, format, index, word);
                assert_eq!(check(&other), Err(Word { kind, index }));
                let window = window_of(&other, format, 3, true);
                assert_eq!(read_refusals(&window), [Some(Word { kind, index }); 2]);
            }
        }
        let mut seen = [false; 10];
        for esb in 0..1024 {
            let at = format.shaped_bits() + 15;
            let other = with_bits(&telegram, format, at, &bits_of(esb, 10));
            let bad = bad_words(&other);
            if let [(only, _)] = bad[..] {
                seen[only - format.blocks()] = true;
            }
            let first = bad.first().map(|&(index, kind)| Word { kind, index });
            let checked = check(&other).err();
            assert_eq!(checked.filter(|refusal| refusal.number() == 9), first);
            let answers = read_refusals(&window_of(&other, format, 200, false));
            assert_eq!(answers, [checked, first]);
        }
        assert!(seen[2..].iter().filter(|&&seen| seen).count() > 0);
    }
}

/// Well-formed telegrams with drawn words: the checker and the reader give 10,
/// 11 or 12 by the first condition that fails, and read_well_formed takes them
/// all. Of some more than one condition fails.
#[test]
fn conditions() {
    let mut random = Random::new(17);
    let (mut seen, mut several) = ([0; 13], 0);
    for format in FORMATS {
        let mut made = 0;
        while made < 60 {
            // Few different words make repeats, and so conditions 3 and 4 fail.
            let kinds = [1024, 1, 2, 3][made % 4];
            let pool: Vec<u16> = (0..kinds).map(|_| random.below(1024) as u16).collect();
            let mut head: Vec<u8> = (0..format.blocks())
                .flat_map(|_| bits_of(word(pool[random.below(kinds)]).into(), 11))
                .collect();
            head.extend([0, 0, 1]);
            head.extend(random.bits(22));
            let check_part = check_bits(&head, format);
            head.extend(check_part);
            if !well_formed(&head, format) {
                continue;
            }
            made += 1;
            let expected = if !condition_2(&head, format) {
                Err(Number(10))
            } else if !condition_3(&head, format) {
                Err(Number(11))
            } else if !condition_4(&head) {
                Err(Number(12))
            } else {
                Ok(format)
            };
            assert_eq!(check(&head), expected);
            let number = expected.err().map_or(0, Refusal::number);
            seen[usize::from(number)] += 1;
            several += usize::from(failing_conditions(&head, format).count() > 1);
            let window = window_of(&head, format, 9, true);
            assert_eq!(read_refusals(&window), [expected.err(), None]);
        }
    }
    assert!(seen[0] > 0 && seen[10] > 0 && seen[11] > 0 && several > 0);
}

/// A long telegram that only condition 4 bars. In each of 31 neighbouring
/// pairs of shaped words every second bit makes a word of the telegram thinned
/// twice; pairs are drawn so that these are valid.
#[test]
fn thinned() {
    let format = Format::Long;
    let mut random = Random::new(22);
    let telegram = loop {
        let mut shaped = Vec::new();
        for _ in 0..31 {
            shaped.extend(loop {
                let pair = valid_words(&mut random, 2);
                let second: Vec<u8> = pair.iter().copied().step_by(2).collect();
                if valid(number_of(&second) as u16) {
                    break pair;
                }
            });
        }
        shaped.extend(valid_words(&mut random, 21));
        let found = (16..4096).find_map(|b| {
            let telegram = complete(&shaped, b, b % 1024, format);
            let fine = well_formed(&telegram, format)
                && condition_2(&telegram, format)
                && condition_3(&telegram, format);
            fine.then_some(telegram)
        });
        if let Some(telegram) = found {
            break telegram;
        }
    };
    // b(1022) is v(511), which stands 511 places after v(1022).
    assert!(thinned_run(&telegram, 1, 511 % 11) >= 31);
    assert!(!condition_4(&telegram));
    assert_eq!(check(&telegram), Err(Number(12)));
    let window = window_of(&telegram, format, 50, false);
    assert_eq!(read_refusals(&window), [Some(Number(12)), None]);
}
