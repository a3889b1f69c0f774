//! Encoding: our engines against the second program and plain Rust written for speed,
//! and what each measure brings to the latter.

use crate::quick::{self, ALL, FIRST_WORD, NUMBERS, RUNS, UPDATES};
use crate::{median, microseconds, shown};
use second::appendices::block_without_a_pair;
use second::encode_skipping;
use second::format::{Format, FORMATS};
use second::random::Random;
use std::hint::black_box;

/// Random blocks of each format.
const BLOCKS: usize = 100;

/// Encodes a block; gives the count of pairs tried up to the first proper one, if there
/// is one.
type Engine = fn(&[u8], &mut [u8]) -> Option<u32>;

fn straightforward(block: &[u8], output: &mut [u8]) -> Option<u32> {
    Some(second::encode(block, output).ok()?.count)
}

fn plain_engine(block: &[u8], output: &mut [u8]) -> Option<u32> {
    Some(balise::encode_plain(block, output).ok()?.count)
}

fn ours(block: &[u8], output: &mut [u8]) -> Option<u32> {
    Some(balise::encode(block, output).ok()?.count)
}

fn for_speed<const MEASURES: u8>(block: &[u8], output: &mut [u8]) -> Option<u32> {
    Some(quick::encode::<MEASURES>(block, output).ok()?.count)
}

/// Blocks to encode, and the counts that the second program's quicker search gives.
struct Blocks {
    blocks: Vec<Vec<u8>>,
    counts: Vec<Option<u32>>,
}

/// What the times of a block are put down as.
type Of = fn(Vec<f64>) -> f64;

fn least(times: Vec<f64>) -> f64 {
    times.into_iter().fold(f64::INFINITY, f64::min)
}

impl Blocks {
    fn new(blocks: Vec<Vec<u8>>) -> Blocks {
        let mut output = [0; Format::Long.telegram_bits()];
        let mut count = |block: &Vec<u8>| Some(encode_skipping(block, &mut output).ok()?.count);
        Blocks {
            counts: blocks.iter().map(&mut count).collect(),
            blocks,
        }
    }

    fn random(random: &mut Random, format: Format) -> Blocks {
        let block = |_| random.bits(format.user_bits());
        Blocks::new((0..BLOCKS).map(block).collect())
    }

    /// The time of each block by some engines, in microseconds: all blocks by one after
    /// the other, so many times over. The counts are compared.
    fn times<const N: usize>(
        &self,
        engines: [Engine; N],
        repetitions: usize,
        of: Of,
    ) -> [Vec<f64>; N] {
        let mut times = [(); N].map(|()| vec![Vec::new(); self.blocks.len()]);
        let mut output = [0; Format::Long.telegram_bits()];
        for _ in 0..repetitions {
            for (engine, times) in engines.iter().zip(&mut times) {
                for (i, block) in self.blocks.iter().enumerate() {
                    let mut count = None;
                    times[i].push(microseconds(|| {
                        count = black_box(engine(black_box(block), &mut output));
                    }));
                    assert_eq!(count, self.counts[i]);
                }
            }
        }
        times.map(|blocks| blocks.into_iter().map(of).collect())
    }
}

fn mean(times: &[f64]) -> f64 {
    times.iter().sum::<f64>() / times.len() as f64
}

fn worst(times: &[f64]) -> f64 {
    times.iter().copied().fold(0.0, f64::max)
}

/// How often a block is encoded: by an engine that divides for each pair, of which the
/// least time counts, and by another, of which the median does.
struct Often {
    slow: usize,
    quick: usize,
}

/// The random blocks, by the four engines.
const RANDOM: Often = Often {
    slow: 2,
    quick: 101,
};

/// The random blocks, by the engine in plain Rust with some measures.
const MEASURED: Often = Often { slow: 2, quick: 11 };

/// The block without a pair.
const WITHOUT: Often = Often { slow: 1, quick: 11 };

/// The times of the four engines for each block.
fn four(blocks: &Blocks, often: &Often) -> [Vec<f64>; 4] {
    let [straightforward, plain_engine] =
        blocks.times([straightforward, plain_engine], often.slow, least);
    let [ours, for_speed] = blocks.times([ours, for_speed::<ALL>], often.quick, median);
    [straightforward, plain_engine, ours, for_speed]
}

fn row(name: &str, [straightforward, plain_engine, ours, for_speed]: [f64; 4]) {
    println!(
        "| {name} | {} | {} | {} | {} | {:.5} | {:.5} | {:.2} |",
        shown(straightforward),
        shown(plain_engine),
        shown(ours),
        shown(for_speed),
        ours / straightforward,
        ours / plain_engine,
        ours / for_speed
    );
}

/// The blocks of both formats, and the one without a pair.
struct Inputs {
    of_formats: [Blocks; 2],
    without: Blocks,
}

/// Prints the times of the four engines.
fn engines(inputs: &Inputs) {
    let (slow, quick, without) = (RANDOM.slow, RANDOM.quick, WITHOUT.quick);
    println!("Microseconds for a block, over the same {BLOCKS} random blocks of each format, and for the");
    println!("long block without a pair. Straightforward is the second program, which forms and");
    println!("checks each pair in order; the plain engine is ours that does the same,");
    println!(
        "`balise_encode_plain`; ours is `balise_encode`; Rust is plain Rust with the algorithm"
    );
    println!("of ours, written for speed. Straightforward and plain engine: the less of {slow} times, and");
    println!("once without a pair; ours and Rust: medians of {quick} times, all blocks by one and then by");
    println!("the other, and of {without} without a pair. All gave the same counts. Asked: at most 0.2 of the");
    println!("straightforward time; the aim: at most 0.002 of the plain engine's.");
    println!();
    println!("| what | straightforward | plain engine | ours | Rust | ours / straightforward | ours / plain engine | ours / Rust |");
    println!("|---|---|---|---|---|---|---|---|");
    for (format, blocks) in FORMATS.iter().zip(&inputs.of_formats) {
        let times = four(blocks, &RANDOM);
        let name = format.name();
        row(
            &format!("{name}, mean"),
            times.each_ref().map(|times| mean(times)),
        );
        row(
            &format!("{name}, worst block"),
            times.map(|times| worst(&times)),
        );
    }
    let times = four(&inputs.without, &WITHOUT);
    row("long, without a pair", times.map(|times| mean(&times)));
}

/// The engine in plain Rust with some measures, by what is left out.
struct Measured {
    left_out: &'static str,
    engine: Engine,
    slow: bool,
}

impl Measured {
    /// Its mean over some blocks.
    fn mean(&self, blocks: &Blocks, often: &Often) -> f64 {
        let [times] = if self.slow {
            blocks.times([self.engine], often.slow, least)
        } else {
            blocks.times([self.engine], often.quick, median)
        };
        mean(&times)
    }
}

const fn measured<const MEASURES: u8>(left_out: &'static str) -> Measured {
    Measured {
        left_out,
        engine: for_speed::<MEASURES>,
        slow: MEASURES & UPDATES == 0,
    }
}

const MEASURED_ENGINES: [Measured; 7] = [
    measured::<ALL>("nothing"),
    measured::<{ ALL & !FIRST_WORD }>("dropping a B by its own word"),
    measured::<{ ALL & !RUNS }>("dropping a B by its shaped data"),
    measured::<{ ALL & !FIRST_WORD & !RUNS }>("both of these"),
    measured::<{ ALL & !UPDATES }>("updating check bits"),
    measured::<{ ALL & !NUMBERS }>("looking words up before they are written"),
    measured::<0>("all of these"),
];

/// Prints what each measure brings.
fn measures(inputs: &Inputs) {
    let Often { slow, quick } = MEASURED;
    println!(
        "What each measure brings, in that engine in plain Rust: means over the same blocks, in"
    );
    println!("microseconds, and how many times the time with all measures that is. A B is dropped");
    println!(
        "whose own word, b109 to b99, is not in the table, and one whose shaped data alone has a"
    );
    println!(
        "run that condition 2 bars. From one esb to the next the check bits are updated, and not"
    );
    println!(
        "divided afresh. The last ten words are looked up in two numbers, and only what passes"
    );
    println!("is written as bits. Medians of {quick} times; where check bits are divided afresh the less");
    println!("of {slow}, and once without a pair.");
    println!();
    println!(
        "| left out | long, mean | times | short, mean | times | long, without a pair | times |"
    );
    println!("|---|---|---|---|---|---|---|");
    let [long, short] = &inputs.of_formats;
    let mut with_all = None;
    for measured in MEASURED_ENGINES {
        let inputs = [
            (long, MEASURED),
            (short, MEASURED),
            (&inputs.without, WITHOUT),
        ];
        let means = inputs.map(|(blocks, often)| measured.mean(blocks, &often));
        let with_all = with_all.get_or_insert(means);
        let cells = means.iter().zip(with_all).map(|(mean, with_all)| {
            let times = mean / *with_all;
            format!(" {} | {times:.1} |", shown(*mean))
        });
        println!("| {} |{}", measured.left_out, cells.collect::<String>());
    }
}

pub fn encode() {
    let mut random = Random::new(2);
    let inputs = Inputs {
        of_formats: FORMATS.map(|format| Blocks::random(&mut random, format)),
        without: Blocks::new(vec![block_without_a_pair()]),
    };
    println!();
    println!("## Encoding");
    println!();
    engines(&inputs);
    println!();
    measures(&inputs);
}
