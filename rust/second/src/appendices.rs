//! Appendices B and C of document 000 as printed, the long block without a
//! pair, the telegrams that only the ring refuses, and others that are
//! well-formed and not proper, from the data files.

use crate::bits::{of_text, unpack};
use crate::format::{Format, FORMATS};

/// A row of Appendix B: the packed block and telegram as printed.
#[derive(Clone, Debug)]
pub struct Row {
    pub number: usize,
    pub block: Vec<u8>,
    pub telegram: Vec<u8>,
}

/// The ten rows of Appendix B.
pub fn appendix_b() -> Vec<Row> {
    include_str!("../../../data/appendix-b.txt")
        .lines()
        .map(|line| {
            let fields: Vec<&str> = line.split('\t').collect();
            Row {
                number: fields[0].parse().expect("a row number"),
                block: bytes_of_hex(fields[1]),
                telegram: bytes_of_hex(fields[2]),
            }
        })
        .collect()
}

/// The 1,023 remainders of Appendix C, in order.
pub fn appendix_c() -> Vec<u128> {
    include_str!("../../../data/appendix-c.txt")
        .lines()
        .map(|line| u128::from_str_radix(line, 16).expect("a hexadecimal remainder"))
        .collect()
}

/// A long block for which no pair is proper.
pub fn block_without_a_pair() -> Vec<u8> {
    of_text(include_bytes!(
        "../../../data/long-block-without-a-pair.txt"
    ))
    .expect("a text of bits")
}

/// Telegrams that condition 2 alone bars, and on the strip did not: long ones,
/// then short ones, for each p from 1 to 10 one with a run over the limit at
/// that step.
pub fn only_the_ring_refuses() -> Vec<Vec<u8>> {
    telegrams_of(include_str!("../../../data/strip-passes-ring-refuses.txt"))
}

/// Well-formed telegrams of which one of conditions 2, 3 and 4 fails, in this
/// order: condition 2, long and then short; condition 3, long; condition 4, long
/// and then short. Then some of which several fail.
pub fn well_formed_not_proper() -> Vec<Vec<u8>> {
    telegrams_of(include_str!("../../../data/well-formed-not-proper.txt"))
}

/// The telegrams of a text, one a line.
fn telegrams_of(text: &str) -> Vec<Vec<u8>> {
    text.lines()
        .map(|line| of_text(line.as_bytes()).expect("a text of bits"))
        .collect()
}

fn bytes_of_hex(text: &str) -> Vec<u8> {
    text.split(' ')
        .map(|byte| u8::from_str_radix(byte, 16).expect("a hexadecimal byte"))
        .collect()
}

impl Row {
    /// The format whose telegrams, packed, have the printed length.
    pub fn format(&self) -> Format {
        FORMATS
            .into_iter()
            .find(|f| f.telegram_bits().div_ceil(8) == self.telegram.len())
            .expect("the length of a telegram")
    }

    /// The telegram's bits, taken from the left.
    pub fn telegram_bits(&self) -> Vec<u8> {
        unpack(&self.telegram, self.format().telegram_bits())
    }

    /// The spare bits after the telegram.
    pub fn spare_bits(&self) -> Vec<u8> {
        unpack(&self.telegram, 8 * self.telegram.len()).split_off(self.format().telegram_bits())
    }

    /// How many bytes the printed block is short of a full one.
    pub fn missing_bytes(&self) -> usize {
        self.format().user_bits().div_ceil(8) - self.block.len()
    }

    /// The printed block with bytes FF filled in before its last byte.
    pub fn filled_block(&self) -> Vec<u8> {
        let (last, front) = self.block.split_last().expect("a printed block");
        [front, &vec![0xff; self.missing_bytes()], &[*last]].concat()
    }

    /// The user bits of the filled block.
    pub fn filled_user_bits(&self) -> Vec<u8> {
        unpack(&self.filled_block(), self.format().user_bits())
    }
}
