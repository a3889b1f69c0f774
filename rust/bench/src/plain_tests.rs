//! Plain Rust's check, make and window calls against the proved calls and the
//! second program.

use crate::plain::{check, condition_2, condition_3, condition_4, make, read, read_well_formed};
use compare::calls::{self, Tally};
use compare::refusals::{provoking, Call};
use compare::telegrams::*;
use second::appendices::{only_the_ring_refuses, well_formed_not_proper};
use second::bits::{flip, turn_left};
use second::conditions::{self, off_step_limit, unthinned, THINNED_RUN};
use second::format::{Format, FORMATS};
use second::made::with_stretch;
use second::random::Random;
use second::read::user_bits_of;
use second::rings::{one_run, ring_of_words, runs_about, words_as};
use second::telegram::{b_of, cut, esb_of, well_formed};
use second::words::KINDS;
use second::{Reading, Refusal};

/// Compares plain Rust's answer with that of the proved call and of the
/// second program.
fn compare_check(tally: &mut Tally, telegram: &[u8]) {
    let answer = check(telegram);
    assert_eq!(answer, calls::check(telegram));
    tally.add(answer);
}

/// Compares plain Rust's answer and what it writes with those of the proved call
/// and of the second program.
fn compare_make(
    tally: &mut Tally,
    random: &mut Random,
    block: &[u8],
    (b, esb): (u64, u64),
    room: usize,
) {
    let mut output = vec![9; room];
    let answer = make(block, b, esb, &mut output);
    let (expected, telegram) = calls::make(random, block, b, esb, room);
    assert_eq!(answer, expected);
    let written = answer.as_ref().map_or(0, |format| format.telegram_bits());
    assert_eq!(output[..written], telegram[..written]);
    assert!(output[written..].iter().all(|&byte| byte == 9));
    tally.add(answer);
}

/// A window call of plain Rust, and both programs' one, with the output.
type Plain = fn(&[u8], &mut [u8]) -> Result<Reading, Refusal>;
type Both = fn(&mut Random, &[u8], usize) -> (Result<Reading, Refusal>, Vec<u8>);

/// What each window call of plain Rust answered.
#[derive(Default)]
struct Windows {
    proper: Tally,
    well_formed: Tally,
}

/// Compares plain Rust's answer and what it writes with those of the proved call
/// and of the second program.
fn compare_by(
    random: &mut Random,
    plain: Plain,
    both: Both,
    window: &[u8],
    room: usize,
) -> Result<Reading, Refusal> {
    let mut output = vec![0; room];
    let answer = plain(window, &mut output);
    let (expected, user) = both(random, window, room);
    assert_eq!(answer, expected);
    let written = answer.as_ref().map_or(0, |r| r.format.user_bits());
    assert_eq!(output[..written], user[..written]);
    assert!(output[written..].iter().all(|&byte| byte == 0));
    answer
}

/// Compares both window calls.
fn compare_read(windows: &mut Windows, random: &mut Random, window: &[u8], room: usize) {
    let answer = compare_by(random, read, calls::read, window, room);
    windows.proper.add(answer);
    let both = calls::read_well_formed;
    let answer = compare_by(random, read_well_formed, both, window, room);
    windows.well_formed.add(answer);
}

/// Well-formed telegrams, and some that are not.
fn telegrams(random: &mut Random, format: Format) -> Vec<Vec<u8>> {
    let mut list = random_telegrams(random, format, 20);
    for telegram in list.clone() {
        let mut damaged = telegram.clone();
        damaged[random.below(telegram.len())] ^= 1;
        let settings = random.bits(25);
        let word = other_word(random);
        let index = random.below(format.blocks());
        list.extend([
            damaged,
            turn_left(&telegram, random.below(telegram.len())),
            flip(&telegram),
            divided(random, format),
            with_bits(&telegram, format, format.shaped_bits(), &settings),
            with_word(&telegram, format, index, word),
        ]);
    }
    for kinds in 1..=20 {
        let draw = |random: &mut Random| few_words(random, format, kinds);
        list.push(drawn(random, format, draw, |t| well_formed(t, format)));
    }
    let kept = [only_the_ring_refuses(), well_formed_not_proper()].concat();
    list.extend(
        kept.into_iter()
            .filter(|t| t.len() == format.telegram_bits()),
    );
    if format == Format::Long {
        for (draw, number) in [(repeating_words as Draw, 11), (thinning_words, 12)] {
            list.extend((0..5).map(|_| barred(random, format, draw, number)));
        }
    }
    list
}

#[test]
fn answers_are_those_of_the_proved_calls() {
    let mut random = Random::new(4);
    let (mut checked, mut windows) = (Tally::default(), Windows::default());
    let mut made = Tally::default();
    for format in FORMATS {
        let n = format.telegram_bits();
        for telegram in telegrams(&mut random, format) {
            compare_check(&mut checked, &telegram);
            if let Ok(user) = user_bits_of(&telegram, format) {
                let pair = (b_of(&telegram, format), esb_of(&telegram, format));
                let pair = (pair.0.into(), pair.1.into());
                compare_make(&mut made, &mut random, &user, pair, n + 5);
            }
            for flipped in [false, true] {
                let turn = random.below(telegram.len());
                let window = cut(&telegram, turn, format.window_bits(), flipped);
                compare_read(&mut windows, &mut random, &window, format.user_bits());
            }
        }
        for _ in 0..2000 {
            let user = random.bits(format.user_bits());
            let pair = (random.below(4096) as u64, random.below(1024) as u64);
            compare_make(&mut made, &mut random, &user, pair, n);
        }
    }
    for (_, call) in provoking(&mut random) {
        match call {
            Call::Check(telegram) => compare_check(&mut checked, &telegram),
            Call::Make(block, b, esb, room) => {
                compare_make(&mut made, &mut random, &block, (b, esb), room);
            }
            Call::Read(window, room) | Call::ReadWellFormed(window, room) => {
                compare_read(&mut windows, &mut random, &window, room);
            }
            _ => {}
        }
    }
    checked.print("telegrams checked by plain Rust, by number");
    assert_eq!(checked.numbers(), [0, 1, 2, 6, 7, 8, 9, 10, 11, 12]);
    made.print("telegrams made by plain Rust, by number");
    assert_eq!(made.numbers(), [0, 1, 2, 3, 9, 27]);
    let Windows {
        proper,
        well_formed,
    } = windows;
    proper.print("windows read by plain Rust, by number");
    assert_eq!(proper.numbers(), [0, 1, 2, 3, 5, 6, 7, 8, 9, 10, 11, 12]);
    well_formed.print("windows read by plain Rust's read_well_formed, by number");
    assert_eq!(well_formed.numbers(), [0, 1, 2, 3, 5, 6, 7, 8, 9]);
    for tally in [checked, made, proper, well_formed] {
        assert_eq!(tally.kinds(), KINDS.into());
    }
}

#[test]
fn condition_3_agrees_on_bits_that_repeat() {
    let mut random = Random::new(5);
    for round in 0..2000 {
        let bits = repeating_bits(&mut random, round % 6);
        assert_eq!(
            condition_3(Format::Long, &bits),
            conditions::condition_3(&bits, Format::Long)
        );
    }
}

/// Rings about a limit: a run of the limit and of one word more from each word
/// on, runs of about the limit all round, and a ring all valid.
fn rings(random: &mut Random, words: usize, limit: usize) -> Vec<Vec<bool>> {
    let mut rings = vec![vec![true; words]];
    for first in 0..words {
        rings.push(one_run(words, first, limit));
        rings.push(one_run(words, first, limit + 1));
        rings.push(runs_about(random, words, limit));
    }
    rings
}

#[test]
fn condition_2_agrees_on_rings() {
    let mut random = Random::new(6);
    for format in FORMATS {
        for p in 0..=10 {
            let mut held = [0; 2];
            let limit = off_step_limit(p.max(1), format);
            for which in rings(&mut random, format.words(), limit) {
                let ring = ring_of_words(&mut random, format, p, &which);
                let holds = conditions::condition_2(&ring, format);
                assert_eq!(condition_2(format, &ring), holds, "{p} {which:?}");
                held[usize::from(holds)] += 1;
            }
            assert!(held[1] > 30 && (held[0] > 30 || p == 0), "{p} {held:?}");
        }
    }
}

#[test]
fn condition_4_agrees_on_rings() {
    let mut random = Random::new(7);
    for format in FORMATS {
        for k in 1..=4 {
            let mut held = [0; 2];
            for which in rings(&mut random, format.words(), THINNED_RUN) {
                let alignment = random.below(11);
                let words = words_as(&mut random, &which);
                let v = with_stretch(format.telegram_bits(), alignment, &words);
                let telegram = unthinned(&v, k);
                let holds = conditions::condition_4(&telegram);
                assert_eq!(condition_4(format, &telegram), holds, "{k} {alignment}");
                held[usize::from(holds)] += 1;
            }
            assert!(held[0] > 30 && held[1] > 30, "{k} {held:?}");
        }
    }
}
