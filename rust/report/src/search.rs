//! What the table leaves of the pairs, and counts on drawn blocks.

use crate::answer;
use second::appendices::block_without_a_pair;
use second::conditions::Course;
use second::encode::{encode_skipping, first_pair_skipping};
use second::format::{Format, FORMATS};
use second::random::Random;
use second::words::valid;
use second::Refusal;

/// Blocks drawn for each format.
const BLOCKS: usize = 101;

pub fn lines() -> Vec<String> {
    let possible: Vec<u16> = (0..4096).filter(|&b| lowest_esb(b).is_some()).collect();
    let least = possible
        .iter()
        .filter_map(|&b| Some(1024 * u32::from(b) + u32::from(lowest_esb(b)?) + 1))
        .min();
    let block = block_without_a_pair();
    let refused = encode_skipping(&block, &mut [0; Format::Long.telegram_bits()]).err();
    let number = refused.map_or(0, Refusal::number);
    let count = match refused {
        Some(Refusal::NoPair { tried }) => tried,
        _ => 0,
    };
    let strip = first_pair_skipping(&block, Format::Long, Course::Strip);
    let mut lines = vec![
        format!(
            "values of B whose words can be in the table: {}, the first {}",
            possible.len(),
            possible[0]
        ),
        format!("so a count is never below {}", least.unwrap_or(0)),
        format!(
            "the long block without a pair: refusal {number}, count {count}; none on the strip, as document 01 had it: {}",
            answer(strip.is_none())
        ),
    ];
    lines.extend(FORMATS.into_iter().map(counts));
    lines
}

/// The lowest esb for which both words with bits of B are in the table.
fn lowest_esb(b: u16) -> Option<u16> {
    let front = 0b001 << 8 | b >> 4;
    let next = |esb: u16| (b & 15) << 7 | esb >> 3;
    (0..1024).find(|&esb| valid(front) && valid(next(esb)))
}

fn counts(format: Format) -> String {
    let mut random = Random::new(830);
    let blocks: Vec<Vec<u8>> = (0..BLOCKS)
        .map(|_| random.bits(format.user_bits()))
        .collect();
    let mut output = [0; Format::Long.telegram_bits()];
    let mut counts: Vec<u32> = blocks
        .iter()
        .filter_map(|block| encode_skipping(block, &mut output).ok())
        .map(|encoded| encoded.count)
        .collect();
    counts.sort_unstable();
    let moved = blocks
        .iter()
        .filter(|block| {
            let [strip, ring] = [Course::Strip, Course::Ring]
                .map(|course| first_pair_skipping(block, format, course));
            strip != ring
        })
        .count();
    format!(
        "{BLOCKS} drawn {} blocks: {} with a pair, counts {} to {}, median {}; first pair another one on the strip: {moved}",
        format.name(),
        counts.len(),
        counts[0],
        counts[counts.len() - 1],
        counts[counts.len() / 2]
    )
}
