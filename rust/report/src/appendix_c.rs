//! Findings about the remainders and the polynomials behind them.

use crate::answer;
use second::appendices::appendix_c;
use second::bits::bits_of;
use second::cyclic::{
    degree, f, fg, g, product, remainder_by_f, remainder_by_fg, remainder_by_g, remainder_of_turn,
};
use second::format::{Format, FORMATS};

pub fn lines() -> Vec<String> {
    let printed = appendix_c();
    let agreeing = printed
        .iter()
        .enumerate()
        .filter(|&(turn, &remainder)| remainder == remainder_of_turn(turn, Format::Long))
        .count();
    vec![
        format!("remainders: {}", printed.len()),
        format!("equal to x^s*g by f, s counted from 0: {agreeing}"),
    ]
}

pub fn polynomial_lines() -> Vec<String> {
    let mut lines: Vec<String> = FORMATS.into_iter().flat_map(format_lines).collect();
    let rounds: Vec<u8> = (0..683).map(|i| u8::from(i % 341 == 0)).collect();
    let mut repeated = vec![0; 683 + 75];
    for (i, bit) in bits_of(g(Format::Short), 76).into_iter().enumerate() {
        for (j, round) in rounds.iter().enumerate() {
            repeated[i + j] ^= bit & round;
        }
    }
    lines.push(format!(
        "long g divides short g*(x^682+x^341+1): {}",
        answer(remainder_by_g(&repeated, Format::Long) == 0)
    ));
    lines.push(format!(
        "long f divides x^682+x^341+1: {}",
        answer(remainder_by_f(&rounds, Format::Long) == 0)
    ));
    lines
}

fn format_lines(format: Format) -> Vec<String> {
    let n = format.telegram_bits();
    let mut power = vec![0; n + 1];
    power[0] = 1;
    power[n] = 1;
    let mut turns: Vec<u128> = (0..n).map(|turn| remainder_of_turn(turn, format)).collect();
    turns.sort_unstable();
    turns.dedup();
    let inverse = (1..1024)
        .find(|&c| remainder_by_f(&bits_of(product(c, g(format)), 128), format) == 1)
        .map_or(String::from("none"), |c| format!("{c:#x}"));
    vec![
        format!(
            "{}: f {:#x}, g {:#x}, f*g {:#x}, degrees {}, {}, {}",
            format.name(),
            f(format),
            g(format),
            fg(format),
            degree(f(format)),
            degree(g(format)),
            degree(fg(format))
        ),
        format!(
            "{}: f*g divides x^{n}+1: {}; divides the list of {n} ones: {}",
            format.name(),
            answer(remainder_by_fg(&power, format) == 0),
            answer(remainder_by_fg(&vec![1; n], format) == 0)
        ),
        format!(
            "{}: different remainders of x^s*g by f for s below {n}: {}; 0 among them: {}; c with c*g = 1 by f: {inverse}",
            format.name(),
            turns.len(),
            answer(turns.contains(&0))
        ),
    ]
}
