//! What a call that takes a block, B, esb and an output is given, and what may be
//! wrong with it: refusals 1, 2, 27 and 3 of make and next (document 02, No. 9 and
//! No. 11).

use crate::other_lengths;
use crate::telegrams::encoded;
use second::format::Format;
use second::random::Random;
use second::read::user_bits_of;
use second::telegram::{b_of, esb_of};

/// A block and a pair.
#[derive(Clone)]
pub struct Given {
    pub block: Vec<u8>,
    pub b: u64,
    pub esb: u64,
}

impl Given {
    /// A random block with the pair of the encoder.
    pub fn random(random: &mut Random, format: Format) -> Given {
        let block = random.bits(format.user_bits());
        let pair = encoded(&block).0;
        Given {
            block,
            b: pair.b.into(),
            esb: pair.esb.into(),
        }
    }

    /// What a well-formed telegram is made of.
    pub fn of_telegram(telegram: &[u8]) -> Given {
        let format = Format::of_telegram(telegram.len()).expect("a telegram");
        Given {
            block: user_bits_of(telegram, format).expect("user bits"),
            b: b_of(telegram, format).into(),
            esb: esb_of(telegram, format).into(),
        }
    }

    fn format(&self) -> Format {
        Format::of_block(self.block.len()).expect("a block")
    }

    /// The room that a telegram of the block takes.
    fn needed(&self) -> usize {
        self.format().telegram_bits()
    }
}

/// Compares a call, lent so much room: the number of its refusal, if it refuses.
pub type Compare<'a> = &'a mut dyn FnMut(&mut Random, &Given, usize) -> Option<u8>;

/// A number that does not fit in so many bits; in some its lowest bits alone are
/// those of a good number.
fn too_large(random: &mut Random, bits: usize, good: u64) -> u64 {
    let (shift, any) = (bits + random.below(64 - bits), random.number());
    match random.below(4) {
        0 => 1 << bits,
        1 => any | 1 << shift,
        _ => good | 1 << shift,
    }
}

/// A call with these faults, and its room: of each kind some variants.
fn with_faults(random: &mut Random, good: &Given, has: impl Fn(u8) -> bool) -> (Given, usize) {
    let n = good.needed();
    let mut call = good.clone();
    if has(27) {
        match random.below(3) {
            0 => call.b = too_large(random, 12, good.b),
            1 => call.esb = too_large(random, 10, good.esb),
            _ => {
                call.b = too_large(random, 12, good.b);
                call.esb = too_large(random, 10, good.esb);
            }
        }
    }
    if has(2) {
        for _ in 0..1 + random.below(3) {
            let place = random.below(call.block.len());
            call.block[place] = 2 + random.below(254) as u8;
        }
    }
    if has(1) {
        let lengths = [0, 1, n, 209, 211, 829, 831];
        // of no bytes at all none is other than 0 or 1
        let least = usize::from(has(2));
        let length = lengths[least + random.below(lengths.len() - least)];
        call.block.resize(length, 0);
        if has(2) {
            call.block[random.below(length)] = 2;
        }
    }
    let room = match (has(3), random.below(3)) {
        (true, 0) => 0,
        (true, 1) => n - 1,
        (true, _) => random.below(n),
        (false, 0) => n,
        (false, 1) => n + 7,
        (false, _) => n + random.below(900),
    };
    (call, room)
}

/// Every combination of faults, of those that have the numbers of `order`: the
/// refusal is the first of them in that order, which is that of the tests. `faulty` is
/// what is given in the place of `good` where the call is to have a fault of another
/// number than 1, 2, 27 and 3.
pub fn combinations(
    random: &mut Random,
    order: &[u8],
    good: &Given,
    faulty: impl Fn(u8) -> Option<Given>,
    compare: Compare,
) {
    for faults in 0..1 << order.len() {
        let has = |number| {
            let at = order.iter().position(|&other| other == number);
            at.is_some_and(|at| faults >> at & 1 == 1)
        };
        let others = order.iter().filter(|&&number| has(number));
        let other = others.copied().find_map(&faulty);
        let (call, room) = with_faults(random, other.as_ref().unwrap_or(good), has);
        let first = order.iter().copied().find(|&number| has(number));
        assert_eq!(compare(random, &call, room), first, "{faults:b}");
    }
}

/// B or esb too large, or both: refusal 27, whatever the room. What is too large is
/// not cut off: the lowest bits of some are a good number.
pub fn numbers_too_large(random: &mut Random, good: &Given, compare: Compare) {
    let n = good.needed();
    let u32_max = u64::from(u32::MAX);
    for b in [
        4096,
        4097,
        good.b | 1 << 12,
        65_535,
        65_536,
        u32_max,
        1 << 32,
        (1 << 32) + good.b,
        1 << 63,
        (1 << 63) + good.b,
        (-1_i32) as u64,
        u64::MAX,
    ] {
        for room in [0, n, n + 7] {
            let call = Given { b, ..good.clone() };
            assert_eq!(compare(random, &call, room), Some(27), "{b}");
        }
    }
    for esb in [
        1024,
        1025,
        good.esb | 1 << 10,
        4095,
        65_536,
        u32_max,
        (1 << 32) + good.esb,
        1 << 63,
        (1 << 63) + good.esb,
        u64::MAX,
    ] {
        for b in [good.b, 4095, 4096, u64::MAX] {
            let block = good.block.clone();
            let call = Given { block, b, esb };
            assert_eq!(compare(random, &call, n), Some(27), "{b} {esb}");
        }
    }
}

/// Every output that is too short, and the one that is just large enough.
pub fn outputs_that_are_too_short(random: &mut Random, good: &Given, compare: Compare) {
    for room in 0..good.needed() {
        assert_eq!(compare(random, good, room), Some(3), "{room}");
    }
    assert_eq!(compare(random, good, good.needed()), None);
}

/// Each byte of the block, with a pair that is good and one that is too large.
pub fn bytes_that_are_no_bits(random: &mut Random, good: &Given, compare: Compare) {
    let n = good.needed();
    for place in 0..good.block.len() {
        let mut call = good.clone();
        call.block[place] = [2, 3, 128, 254, 255][random.below(5)];
        for b in [good.b, 4096, u64::MAX] {
            call.b = b;
            let room = [0, n - 1, n, n + 9][place % 4];
            assert_eq!(compare(random, &call, room), Some(2), "{place}");
        }
    }
}

/// Every length but those of the formats, with pairs that are good and too large.
pub fn lengths_that_fit_no_format(random: &mut Random, good: &Given, compare: Compare) {
    for block in other_lengths(random, [210, 830]) {
        let mut call = Given {
            block,
            ..good.clone()
        };
        for (b, room) in [(good.b, 1100), (4096, 1023), (u64::MAX, 0)] {
            call.b = b;
            assert_eq!(compare(random, &call, room), Some(1));
        }
    }
}
