//! Times the proved calls and layers against plain Rust in one run. It judges
//! nothing.

mod calls;
mod captures;
mod check;
mod choices;
mod encode;
mod layer_rows;
pub mod look_up;
mod plain;
#[cfg(test)]
mod plain_tests;
mod quick;
mod quick_search;
#[cfg(test)]
mod quick_search_tests;
#[cfg(test)]
mod quick_tests;

use second::random::Random;
use std::time::Instant;

/// Many short repetitions, so that most are not interrupted.
const REPETITIONS: usize = 301;

/// Inputs in a repetition.
const INPUTS: usize = 64;

/// Repetitions with different inputs, so that no branch predictor learns them.
const SETS: usize = 32;

/// Random bits for every set of inputs.
fn inputs(random: &mut Random, length: usize) -> Vec<Vec<u8>> {
    (0..SETS * INPUTS).map(|_| random.bits(length)).collect()
}

/// The inputs of a set.
fn set<T>(inputs: &[T], i: usize) -> &[T] {
    &inputs[i * INPUTS..][..INPUTS]
}

fn microseconds(work: impl FnOnce()) -> f64 {
    let start = Instant::now();
    work();
    start.elapsed().as_nanos() as f64 / 1000.0
}

fn median(mut times: Vec<f64>) -> f64 {
    times.sort_by(f64::total_cmp);
    times[times.len() / 2]
}

/// A time, with a digit after the point where it is short.
fn shown(time: f64) -> String {
    let digits = if time < 1000.0 { 1 } else { 0 };
    format!("{time:.digits$}")
}

/// Prints the head of a table of ratios.
fn heading() {
    println!("| what | ours, microseconds | ours / plain | aim: at most |");
    println!("|---|---|---|---|");
}

/// Prints a row of it, the times in microseconds.
fn row(name: &str, ours: f64, plain: f64, aim: &str) {
    let digits = if ours < 10.0 { 3 } else { 0 };
    let ratio = ours / plain;
    println!("| {name} | {ours:.digits$} | {ratio:.2} | {aim} |");
}

/// Times both sides in turn and prints a row. Each closure does a number of calls
/// on a set of inputs.
fn timed_row(
    name: &str,
    calls: usize,
    aim: &str,
    ours: impl FnMut(usize),
    plain: impl FnMut(usize),
) {
    let (ours, plain) = timed(calls, ours, plain);
    row(name, ours, plain, aim);
}

/// The median times of a call on both sides, taken in turn, in microseconds.
fn timed(calls: usize, mut one: impl FnMut(usize), mut other: impl FnMut(usize)) -> (f64, f64) {
    let (mut times, mut other_times) = (Vec::new(), Vec::new());
    for repetition in 0..REPETITIONS {
        let i = repetition % SETS;
        times.push(microseconds(|| one(i)) / calls as f64);
        other_times.push(microseconds(|| other(i)) / calls as f64);
    }
    (median(times), median(other_times))
}

/// Prints docs/PERFORMANCE.md, with the seconds of the check from what
/// the older kit's `rt prove` printed.
pub fn figures(log: Option<&str>) {
    println!("# Figures");
    println!();
    println!(
        "Printed by the program `bench`, with nothing else running, from the repository's root:"
    );
    println!();
    println!("```");
    println!("tools/archives");
    println!("cd rust && cargo run --release --offline -p bench > ../docs/PERFORMANCE.md");
    println!("```");
    println!();
    println!("Ratios of one run, both sides built for release; nothing asserts a time. Medians of");
    println!("{REPETITIONS} repetitions of {INPUTS} inputs, ours and plain in turn, unless a table says otherwise. Output");
    println!("buffers are cleared before the first call only, for both.");
    layer_rows::layers();
    println!();
    println!("## Lookup of a word");
    println!();
    look_up::look_up();
    encode::encode();
    choices::choices();
    calls::calls();
    captures::captures();
    if let Some(log) = log {
        check::check(log);
    }
}
