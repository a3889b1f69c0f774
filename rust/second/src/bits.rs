//! Lists of bits, one to a byte, earliest (highest) first.

/// Is every byte 0 or 1?
pub fn all_bits(bytes: &[u8]) -> bool {
    bytes.iter().all(|&byte| byte <= 1)
}

/// The number with these bits, the first one highest. At most 64 bits.
pub fn number_of(bits: &[u8]) -> u64 {
    bits.iter()
        .fold(0, |number, &bit| 2 * number + u64::from(bit))
}

/// The lowest `width` bits of a number, highest first.
pub fn bits_of(number: u128, width: usize) -> Vec<u8> {
    (0..width)
        .rev()
        .map(|place| (number >> place & 1) as u8)
        .collect()
}

/// All bits flipped.
pub fn flip(bits: &[u8]) -> Vec<u8> {
    bits.iter().map(|&bit| 1 - bit).collect()
}

/// The list turned left: the first `turn` bits move to the end.
pub fn turn_left(bits: &[u8], turn: usize) -> Vec<u8> {
    [&bits[turn..], &bits[..turn]].concat()
}

/// The list turned right: `turn_left` undone.
pub fn turn_right(bits: &[u8], turn: usize) -> Vec<u8> {
    turn_left(bits, bits.len() - turn)
}

/// In how many places two lists of one length differ.
pub fn distance(one: &[u8], other: &[u8]) -> usize {
    one.iter().zip(other).filter(|(a, b)| a != b).count()
}

/// The first `count` bits of packed bytes, the 128 place of a byte first.
pub fn unpack(bytes: &[u8], count: usize) -> Vec<u8> {
    (0..count)
        .map(|i| bytes[i / 8] >> (7 - i % 8) & 1)
        .collect()
}

/// The bits packed eight to a byte, spare bits 0.
pub fn pack(bits: &[u8]) -> Vec<u8> {
    bits.chunks(8)
        .map(|chunk| {
            chunk
                .iter()
                .enumerate()
                .fold(0, |byte, (i, &bit)| byte | bit << (7 - i))
        })
        .collect()
}

/// Characters 0 and 1 for the bits.
pub fn text(bits: &[u8]) -> String {
    bits.iter().map(|&bit| char::from(b'0' + bit)).collect()
}

/// The bits that a text of characters 0 and 1 spells; line ends are skipped.
pub fn of_text(text: &[u8]) -> Option<Vec<u8>> {
    text.iter()
        .filter(|&&byte| byte != 10 && byte != 13)
        .map(|&byte| match byte {
            b'0' => Some(0),
            b'1' => Some(1),
            _ => None,
        })
        .collect()
}

/// What makes a text bad.
#[derive(Clone, Copy, Debug, PartialEq, Eq)]
pub enum Fault {
    /// A byte that is neither a bit nor a line end, and its place, counted from 1.
    Character { byte: u8, place: usize },
    /// A bit more than the limit.
    Limit,
}

/// The first fault of a text that may spell at most `limit` bits.
pub fn first_fault(text: &[u8], limit: usize) -> Option<Fault> {
    let mut bits = 0;
    for (byte, place) in text.iter().copied().zip(1..) {
        match byte {
            10 | 13 => {}
            b'0' | b'1' if bits < limit => bits += 1,
            b'0' | b'1' => return Some(Fault::Limit),
            _ => return Some(Fault::Character { byte, place }),
        }
    }
    None
}
