//! The public calls, without encode, against plain Rust's.

use crate::{heading, plain, set, timed, timed_row, INPUTS, SETS};
use balise::{MAX_TELEGRAM_BITS, MAX_USER_BITS};
use second::format::{Format, FORMATS};
use second::made::random_telegrams;
use second::random::Random;
use second::read::user_bits_of;
use second::telegram::{b_of, cut, esb_of};
use second::{Reading, Refusal};
use std::fmt::Debug;
use std::hint::black_box;

/// Different telegrams to check and to read; more would take long to make.
const TELEGRAMS: usize = 64;

/// Prints the row of checking for a format. Plain Rust and the second program
/// answer alike.
fn check_row(random: &mut Random, proper: &[Vec<u8>], format: Format) {
    let inputs: Vec<Vec<u8>> = (0..SETS * INPUTS)
        .map(|_| proper[random.below(TELEGRAMS)].clone())
        .collect();
    for telegram in set(&inputs, 0) {
        assert_eq!(plain::check(telegram), second::check(telegram));
    }
    let ours = |i| {
        for telegram in set(&inputs, i) {
            black_box(balise::check(black_box(telegram))).expect("a proper telegram");
        }
    };
    let plain = |i| {
        for telegram in set(&inputs, i) {
            black_box(plain::check(black_box(telegram))).expect("a proper telegram");
        }
    };
    let name = format!("check, {}", format.name());
    timed_row(&name, INPUTS, "1.5", ours, plain);
}

/// What a telegram is made of.
struct Made {
    block: Vec<u8>,
    b: u64,
    esb: u64,
}

/// One of the sides of make.
type Make<T, E> = fn(&[u8], u64, u64, &mut [u8]) -> Result<T, E>;

/// One of the sides of make on a set of blocks.
fn making<'a, T: 'a, E: Debug + 'a>(
    call: Make<T, E>,
    inputs: &'a [Made],
) -> impl FnMut(usize) + 'a {
    let mut out = [0; MAX_TELEGRAM_BITS];
    move |i| {
        for Made { block, b, esb } in set(inputs, i) {
            let answer = call(black_box(block), black_box(*b), black_box(*esb), &mut out);
            black_box(answer).expect("a telegram");
            black_box(&out);
        }
    }
}

/// Prints the row of making for a format: each telegram from its user bits and
/// its pair. Plain Rust and the second program make the same.
fn make_row(random: &mut Random, proper: &[Vec<u8>], format: Format) {
    let inputs: Vec<Made> = (0..SETS * INPUTS)
        .map(|_| {
            let telegram = &proper[random.below(TELEGRAMS)];
            Made {
                block: user_bits_of(telegram, format).expect("user bits"),
                b: b_of(telegram, format).into(),
                esb: esb_of(telegram, format).into(),
            }
        })
        .collect();
    let (mut plain_out, mut second_out) = ([0; MAX_TELEGRAM_BITS], [0; MAX_TELEGRAM_BITS]);
    for Made { block, b, esb } in set(&inputs, 0) {
        let expected = second::make(block, *b, *esb, &mut second_out);
        assert_eq!(plain::make(block, *b, *esb, &mut plain_out), expected);
        assert_eq!(plain_out, second_out);
    }
    let name = format!("make, {}", format.name());
    let (ours, plain) = (making(balise::make, &inputs), making(plain::make, &inputs));
    timed_row(&name, INPUTS, "1.5", ours, plain);
}

/// A window call: its name, ours, that of plain Rust and the second program's.
struct WindowCall {
    name: &'static str,
    ours: fn(&[u8], &mut [u8]) -> Result<balise::Reading, balise::Refusal>,
    plain: fn(&[u8], &mut [u8]) -> Result<Reading, Refusal>,
    second: fn(&[u8], &mut [u8]) -> Result<Reading, Refusal>,
}

const READ: WindowCall = WindowCall {
    name: "read",
    ours: balise::read,
    plain: plain::read,
    second: second::read,
};

const READ_WELL_FORMED: WindowCall = WindowCall {
    name: "read_well_formed",
    ours: balise::read_well_formed,
    plain: plain::read_well_formed,
    second: second::read_well_formed,
};

/// Windows at any turn, half of them flipped.
fn windows(random: &mut Random, proper: &[Vec<u8>], format: Format) -> Vec<Vec<u8>> {
    (0..SETS * INPUTS)
        .map(|i| {
            let telegram = &proper[random.below(TELEGRAMS)];
            let turn = random.below(format.telegram_bits());
            cut(telegram, turn, format.window_bits(), i % 2 == 1)
        })
        .collect()
}

/// One of the sides of a window call on a set of windows.
fn reading<'a, T: 'a, E: Debug + 'a>(
    call: fn(&[u8], &mut [u8]) -> Result<T, E>,
    inputs: &'a [Vec<u8>],
) -> impl FnMut(usize) + 'a {
    let mut out = [0; MAX_USER_BITS];
    move |i| {
        for window in set(inputs, i) {
            black_box(call(black_box(window), &mut out)).expect("a reading");
            black_box(&out);
        }
    }
}

/// Prints the row of a window call for a format. Plain Rust and the second
/// program read the windows alike.
fn read_row(call: &WindowCall, inputs: &[Vec<u8>], format: Format) {
    let (mut plain_out, mut second_out) = ([0; MAX_USER_BITS], [0; MAX_USER_BITS]);
    for window in set(inputs, 0) {
        let expected = (call.second)(window, &mut second_out);
        assert_eq!((call.plain)(window, &mut plain_out), expected);
        assert_eq!(plain_out, second_out);
    }
    let name = format!("{}, {}", call.name, format.name());
    let (ours, plain) = (reading(call.ours, inputs), reading(call.plain, inputs));
    timed_row(&name, INPUTS, "1.5", ours, plain);
}

/// How many times the time of our read_well_formed our read takes.
fn read_ratio(inputs: &[Vec<u8>]) -> f64 {
    let (proper, well_formed) = timed(
        INPUTS,
        reading(READ.ours, inputs),
        reading(READ_WELL_FORMED.ours, inputs),
    );
    proper / well_formed
}

pub fn calls() {
    let mut random = Random::new(2);
    println!();
    println!("## Calls");
    println!();
    println!(
        "Proper telegrams, made of their user bits and pairs, checked, and read from windows cut"
    );
    println!(
        "at any turn, half of them flipped; plain is plain Rust with the same algorithm, written"
    );
    println!("for speed.");
    println!();
    heading();
    let ratios = FORMATS.map(|format| {
        let proper = random_telegrams(&mut random, format, TELEGRAMS);
        check_row(&mut random, &proper, format);
        make_row(&mut random, &proper, format);
        let inputs = windows(&mut random, &proper, format);
        read_row(&READ, &inputs, format);
        read_row(&READ_WELL_FORMED, &inputs, format);
        read_ratio(&inputs)
    });
    println!();
    println!("On the same windows, in turn, our read takes so many times the time of our");
    println!(
        "read_well_formed: {:.2} long, {:.2} short. Conditions 2, 3 and 4 are the difference.",
        ratios[0], ratios[1]
    );
}
