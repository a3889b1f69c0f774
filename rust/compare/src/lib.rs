//! What the tests in tests/ share. They compare the proved calls and layers
//! with the second program.

pub mod calls;
pub mod captures;
pub mod documents;
pub mod faults;
pub mod lists;
pub mod programs;
pub mod refusals;
pub mod telegrams;

use second::format::{Format, FORMATS};
use second::random::Random;
use std::panic::resume_unwind;
use std::sync::atomic::{AtomicUsize, Ordering};
use std::thread;

/// Whether a format is the long one: how it crosses to the layers.
pub fn long(format: Format) -> bool {
    format == Format::Long
}

/// The first `length` bytes of a buffer after `write`, which must keep the
/// rest. The buffer holds random bytes before.
pub fn written(random: &mut Random, length: usize, write: impl Fn(&mut [u8])) -> Vec<u8> {
    let spare = random.below(40);
    let mut out: Vec<u8> = (0..length + spare).map(|_| random.number() as u8).collect();
    let tail = out[length..].to_vec();
    write(&mut out);
    assert_eq!(out.split_off(length), tail);
    out
}

/// The first two words of a buffer after `write`, the high one first, as a
/// number. `write` must keep the rest of the buffer.
pub fn two_words(random: &mut Random, write: impl Fn(&mut [u64])) -> u128 {
    let mut out: Vec<u64> = (0..2 + random.below(4)).map(|_| random.number()).collect();
    let tail = out[2..].to_vec();
    write(&mut out);
    assert_eq!(out[2..], tail);
    u128::from(out[0]) << 64 | u128::from(out[1])
}

/// Lists of this length: all 0, all 1, and for each period from 2 to 12 a 1 at
/// its multiples, upright and flipped.
pub fn patterns(length: usize) -> Vec<Vec<u8>> {
    let mut lists = vec![vec![0; length], vec![1; length]];
    for period in 2..=12 {
        let list: Vec<u8> = (0..length).map(|i| u8::from(i % period == 0)).collect();
        lists.push(second::bits::flip(&list));
        lists.push(list);
    }
    lists
}

/// Runs a test with each format and a source of numbers.
pub fn both_formats(seed: u64, test: impl Fn(Format, &mut Random)) {
    for format in FORMATS {
        test(format, &mut Random::new(seed));
    }
}

/// The count that a variable of the environment asks for, or this one.
pub fn asked(variable: &str, count: usize) -> usize {
    match std::env::var(variable) {
        Ok(text) => text
            .parse()
            .unwrap_or_else(|_| panic!("{variable} is a number")),
        Err(_) => count,
    }
}

/// What `work` gives for each of these, on all processors, in their order. The
/// next free processor takes the next one.
pub fn on_all_processors<T: Sync, R: Send>(
    list: &[T],
    work: impl Fn(usize, &T) -> R + Sync,
) -> Vec<R> {
    let next = AtomicUsize::new(0);
    let turn = || {
        let i = next.fetch_add(1, Ordering::Relaxed);
        Some((i, work(i, list.get(i)?)))
    };
    let mut results = thread::scope(|scope| {
        let processors = thread::available_parallelism().map_or(1, usize::from);
        let threads: Vec<_> = (0..processors)
            .map(|_| scope.spawn(|| std::iter::from_fn(turn).collect::<Vec<_>>()))
            .collect();
        threads
            .into_iter()
            .flat_map(|thread| thread.join().unwrap_or_else(|panic| resume_unwind(panic)))
            .collect::<Vec<_>>()
    });
    results.sort_by_key(|&(i, _)| i);
    results.into_iter().map(|(_, result)| result).collect()
}

/// Lists of every length up to 1,300 that is not one of these two: of bits, and
/// with a byte that is none.
pub fn other_lengths(random: &mut Random, lengths: [usize; 2]) -> Vec<Vec<u8>> {
    let mut lists = Vec::new();
    for length in (0..=1300).filter(|length| !lengths.contains(length)) {
        let bits = random.bits(length);
        if length > 0 {
            let mut bytes = bits.clone();
            bytes[random.below(length)] = 2 + random.below(254) as u8;
            lists.push(bytes);
        }
        lists.push(bits);
    }
    lists
}

/// Changes some of these bits.
pub fn burst(random: &mut Random, bits: &mut [u8]) {
    for bit in bits {
        *bit ^= random.bits(1)[0];
    }
}
