//! The first hundred proper pairs of a block, one after the other: our next against
//! the second program's and that of plain Rust written for speed.

use crate::{median, microseconds, quick, shown};
use second::format::{Format, FORMATS};
use second::pairs_skipping;
use second::random::Random;
use std::hint::black_box;

/// Random blocks of each format.
const BLOCKS: usize = 5;

/// Pairs of each block.
const PAIRS: usize = 100;

/// How often ours and plain Rust's go through them.
const REPETITIONS: usize = 31;

/// Gives the next pair at or after B and esb, if there is one.
type Lister = fn(&[u8], u64, u64, &mut [u8]) -> Option<(u16, u16)>;

fn straightforward(block: &[u8], b: u64, esb: u64, output: &mut [u8]) -> Option<(u16, u16)> {
    let next = second::next(block, b, esb, output).expect("a good start")?;
    Some((next.b, next.esb))
}

fn ours(block: &[u8], b: u64, esb: u64, output: &mut [u8]) -> Option<(u16, u16)> {
    let pair = balise::next(block, b, esb, output).expect("a good start")?;
    Some((pair.b, pair.esb))
}

fn for_speed(block: &[u8], b: u64, esb: u64, output: &mut [u8]) -> Option<(u16, u16)> {
    let next = quick::next(block, b, esb, output).expect("a good start")?;
    Some((next.b, next.esb))
}

/// A block, and its pairs in counting order.
struct Block {
    bits: Vec<u8>,
    pairs: Vec<(u16, u16)>,
}

impl Block {
    /// A random block that has as many pairs as are asked for, and more.
    fn random(random: &mut Random, format: Format) -> Block {
        loop {
            let bits = random.bits(format.user_bits());
            let list = pairs_skipping(&bits).expect("a block of bits");
            let pairs: Vec<(u16, u16)> = list.map(|pair| (pair.b, pair.esb)).collect();
            if pairs.len() > PAIRS {
                return Block { bits, pairs };
            }
        }
    }

    /// The time in microseconds in which a lister goes from the start on, and just
    /// after each answer, through so many pairs, or to the end of the list. They are
    /// those of the list.
    fn time(&self, lister: Lister, count: usize) -> f64 {
        let mut output = [0; Format::Long.telegram_bits()];
        let mut found = Vec::with_capacity(self.pairs.len());
        let time = microseconds(|| {
            let mut number = 0;
            while found.len() < count {
                let (b, esb) = (number / 1024, number % 1024);
                let Some(pair) = black_box(lister(black_box(&self.bits), b, esb, &mut output))
                else {
                    break;
                };
                found.push(pair);
                number = 1024 * u64::from(pair.0) + u64::from(pair.1) + 1;
            }
        });
        assert_eq!(found, self.pairs[..count.min(self.pairs.len())]);
        time
    }
}

/// The mean over some blocks of what one takes.
fn mean(blocks: &[Block], time: impl Fn(&Block) -> f64) -> f64 {
    blocks.iter().map(time).sum::<f64>() / blocks.len() as f64
}

/// The median of several times.
fn several(time: impl Fn() -> f64) -> f64 {
    median((0..REPETITIONS).map(|_| time()).collect())
}

/// The times in which ours and plain Rust's go through so many pairs.
fn quick_times(blocks: &[Block], count: usize) -> [f64; 2] {
    [ours as Lister, for_speed]
        .map(|lister| mean(blocks, |block| several(|| block.time(lister, count))))
}

pub fn choices() {
    let mut random = Random::new(9);
    println!();
    println!("## All the choices");
    println!();
    println!("The first {PAIRS} pairs that make a proper telegram, from the start on and just after each:");
    println!("microseconds a pair, means over {BLOCKS} random blocks of each format. Straightforward is the");
    println!(
        "second program, which forms and checks each pair in order, once from each of the same"
    );
    println!("{PAIRS} starts; ours is `balise_next`; Rust is plain Rust with the algorithm of ours, written");
    println!("for speed; medians of {REPETITIONS} times for these. Then all pairs of the blocks, with the search to");
    println!(
        "the end that says no more, without the straightforward search. All gave the same pairs."
    );
    println!();
    println!("| what | pairs of a block | straightforward | ours | Rust | ours / straightforward | ours / Rust |");
    println!("|---|---|---|---|---|---|---|");
    for format in FORMATS {
        let blocks: Vec<Block> = (0..BLOCKS)
            .map(|_| Block::random(&mut random, format))
            .collect();
        let a_pair = |time: f64| time / PAIRS as f64;
        let plain = a_pair(mean(&blocks, |block| block.time(straightforward, PAIRS)));
        let [ours, rust] = quick_times(&blocks, PAIRS).map(a_pair);
        let name = format.name();
        println!(
            "| {name}, the first {PAIRS} | {PAIRS} | {} | {} | {} | {:.5} | {:.2} |",
            shown(plain),
            shown(ours),
            shown(rust),
            ours / plain,
            ours / rust
        );
        let all = mean(&blocks, |block| block.pairs.len() as f64);
        let [ours, rust] = quick_times(&blocks, usize::MAX).map(|time| time / all);
        println!(
            "| {name}, all | {all:.0} | | {} | {} | | {:.2} |",
            shown(ours),
            shown(rust),
            ours / rust
        );
    }
}
