//! The layers against plain Rust.

use crate::plain::{self, FG, G};
use crate::{heading, inputs, set, timed_row, INPUTS};
use second::cyclic;
use second::format::Format;
use second::random::Random;
use std::hint::black_box;

/// A division of the layers, and one of plain Rust.
type Ours = fn(bool, &[u8], &mut [u64]);
type Plain = fn(&[u8]) -> u128;

/// Prints the rows of a division: the second program's has a variable divisor.
fn division_rows(name: &str, telegrams: &[Vec<u8>], ours: Ours, divisor: u128, plain: Plain) {
    let mut two_words = [0; 2];
    let mut ours = |i| {
        for bits in set(telegrams, i) {
            ours(true, black_box(bits), &mut two_words);
            black_box(&two_words);
        }
    };
    let variable = |i| {
        for bits in set(telegrams, i) {
            black_box(cyclic::remainder(black_box(bits), black_box(divisor)));
        }
    };
    let constant = |i| {
        for bits in set(telegrams, i) {
            black_box(plain(black_box(bits)));
        }
    };
    let name = format!("remainder of 1,023 bits by {name}, the divisor a variable");
    timed_row(&name, INPUTS, "1.5", &mut ours, variable);
    let name = "the same, the divisor a constant";
    timed_row(name, INPUTS, "1.5", &mut ours, constant);
}

/// Prints the row of scrambling, each block by another B.
fn scrambling_row(blocks: &[Vec<u8>]) {
    let mut out = [0; Format::Long.user_bits()];
    let mut plain_out = out;
    let ours = |i| {
        for (b, block) in set(blocks, i).iter().enumerate() {
            layers::scramble(black_box(b as u16), black_box(block), &mut out);
            black_box(&out);
        }
    };
    let plain = |i| {
        for (b, block) in set(blocks, i).iter().enumerate() {
            plain::scramble(black_box(b as u32), black_box(block), &mut plain_out);
            black_box(&plain_out);
        }
    };
    let name = "scrambling of 830 bits";
    timed_row(name, INPUTS, "1.5", ours, plain);
}

pub fn layers() {
    let mut random = Random::new(1);
    let telegrams = inputs(&mut random, Format::Long.telegram_bits());
    let blocks = inputs(&mut random, Format::Long.user_bits());
    println!();
    println!("## Layers");
    println!();
    println!(
        "Ours include the wrapper's test that each byte is a bit. Plain: the second program's"
    );
    println!("division in a u128, its divisor a variable, and the same loop with its divisor a");
    println!("constant; the same algorithm of scrambling.");
    println!();
    heading();
    let by_g = plain::remainder::<G>;
    division_rows("g", &telegrams, layers::remainder_g, G, by_g);
    let by_fg = plain::remainder::<FG>;
    division_rows("f*g", &telegrams, layers::remainder_fg, FG, by_fg);
    scrambling_row(&blocks);
}
