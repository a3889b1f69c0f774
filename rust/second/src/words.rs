//! The table from ten bits to eleven (document 01, "Words"; document 000,
//! Appendix A), and what is wrong with a word that it does not have (document
//! 02, No. 13).

use std::sync::LazyLock;

/// The eleven-bit words.
pub const WORD_BITS: usize = 11;

/// The number of entries of the table.
pub const ENTRIES: usize = 1024;

static TABLE: LazyLock<Vec<u16>> = LazyLock::new(|| {
    include_str!("../../../data/appendix-a.txt")
        .lines()
        .map(|line| u16::from_str_radix(line, 8).expect("an octal entry"))
        .collect()
});

/// What is wrong with a word that is not in the table.
#[derive(Clone, Copy, Debug, PartialEq, Eq, PartialOrd, Ord)]
pub enum Kind {
    /// It is in the group of 250.
    Group250,
    /// It is in the group of 20.
    Group20,
    /// It is in neither, and simply not in the table.
    Other,
}

/// The three kinds.
pub const KINDS: [Kind; 3] = [Kind::Group250, Kind::Group20, Kind::Other];

impl Kind {
    /// The name in the programs' output.
    pub const fn name(self) -> &'static str {
        match self {
            Kind::Group250 => "250",
            Kind::Group20 => "20",
            Kind::Other => "other",
        }
    }
}

/// What is wrong with each of the 2,048 words, filled by looking each up.
static WRONG: LazyLock<Vec<Option<Kind>>> =
    LazyLock::new(|| (0..2048).map(|word| look_up(word).err()).collect());

/// The whole table.
pub fn table() -> &'static [u16] {
    &TABLE
}

/// Entry i of the table, i below 1024.
pub fn word(i: u16) -> u16 {
    TABLE[usize::from(i)]
}

/// The number of a word, found by walking the table from the front, or what is
/// wrong with it. What has more than eleven bits is in no group.
pub fn look_up(word: u16) -> Result<u16, Kind> {
    for (i, &entry) in TABLE.iter().enumerate() {
        if entry == word {
            return Ok(i as u16);
        }
    }
    let eleven_bits = word < 1 << WORD_BITS;
    if eleven_bits && in_group_250(word) {
        Err(Kind::Group250)
    } else if eleven_bits && in_group_20(word) {
        Err(Kind::Group20)
    } else {
        Err(Kind::Other)
    }
}

/// The number of a word, if it has one.
pub fn number(word: u16) -> Option<u16> {
    look_up(word).ok()
}

/// What is wrong with an eleven-bit word, if anything is.
pub fn wrong(word: u16) -> Option<Kind> {
    WRONG[usize::from(word)]
}

/// Is an eleven-bit word in the table?
pub fn valid(word: u16) -> bool {
    wrong(word).is_none()
}

/// A word with its eleven bits flipped.
pub fn flip(word: u16) -> u16 {
    2047 - word
}

/// The word with these eleven bits.
pub fn of_bits(bits: &[u8]) -> u16 {
    bits.iter().fold(0, |word, &bit| 2 * word + u16::from(bit))
}

/// Ten of the 20 barred words that repeat themselves; the others are their
/// flips.
const REPEATING: [u16; 10] = [
    0b01010101010,
    0b00100100100,
    0b01001001001,
    0b10010010010,
    0b00010001000,
    0b00100010001,
    0b01000100010,
    0b10001000100,
    0b00110011001,
    0b01100110011,
];

/// One of the 248 words that begin or end with 00000 or 11111.
pub fn has_five_alike(word: u16) -> bool {
    let (front, back) = (word >> 6, word & 31);
    front == 0 || front == 31 || back == 0 || back == 31
}

/// One of the group of 250: the 248, 10000000001 and 01111111110.
pub fn in_group_250(word: u16) -> bool {
    has_five_alike(word) || word == 0b10000000001 || word == 0b01111111110
}

/// One of the group of 20.
pub fn in_group_20(word: u16) -> bool {
    REPEATING.contains(&word) || REPEATING.contains(&flip(word))
}
