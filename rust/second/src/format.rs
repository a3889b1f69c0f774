//! The two formats and their fixed numbers (document 01, "What the bench
//! takes in" and "Check bits").

/// The format of a telegram.
#[derive(Clone, Copy, Debug, PartialEq, Eq)]
pub enum Format {
    Long,
    Short,
}

/// Both formats, long first.
pub const FORMATS: [Format; 2] = [Format::Long, Format::Short];

/// Degree of f*g, and so the number of check bits.
pub const CHECK_BITS: usize = 85;

const F_LONG: &[u32] = &[10, 9, 7, 6, 4, 3, 2, 1, 0];
const F_SHORT: &[u32] = &[10, 8, 7, 5, 3, 1, 0];
const G_LONG: &[u32] = &[
    75, 73, 72, 71, 67, 62, 61, 60, 57, 56, 55, 52, 51, 49, 46, 45, 44, 43, 41, 37, 35, 34, 33, 31,
    30, 28, 26, 24, 21, 17, 16, 15, 13, 12, 11, 9, 4, 1, 0,
];
const G_SHORT: &[u32] = &[
    75, 72, 71, 70, 69, 68, 66, 65, 64, 63, 60, 55, 54, 49, 47, 46, 45, 44, 43, 42, 41, 39, 38, 37,
    36, 34, 33, 32, 31, 30, 27, 25, 22, 19, 17, 13, 12, 11, 10, 6, 3, 1, 0,
];

impl Format {
    /// m, the bits of a user block.
    pub const fn user_bits(self) -> usize {
        10 * self.blocks()
    }

    /// k, the blocks of ten user bits.
    pub const fn blocks(self) -> usize {
        match self {
            Format::Long => 83,
            Format::Short => 21,
        }
    }

    /// n, the bits of a telegram.
    pub const fn telegram_bits(self) -> usize {
        11 * self.words()
    }

    /// The words of a telegram: the shaped ones and the last ten.
    pub const fn words(self) -> usize {
        self.blocks() + 10
    }

    /// The bits of the shaped data.
    pub const fn shaped_bits(self) -> usize {
        11 * self.blocks()
    }

    /// r, the bits of a window beyond n.
    pub const fn extra_bits(self) -> usize {
        match self {
            Format::Long => 77,
            Format::Short => 121,
        }
    }

    /// n + r, the bits of a window.
    pub const fn window_bits(self) -> usize {
        self.telegram_bits() + self.extra_bits()
    }

    /// The exponents of f.
    pub const fn f(self) -> &'static [u32] {
        match self {
            Format::Long => F_LONG,
            Format::Short => F_SHORT,
        }
    }

    /// The exponents of g.
    pub const fn g(self) -> &'static [u32] {
        match self {
            Format::Long => G_LONG,
            Format::Short => G_SHORT,
        }
    }

    /// The name in the programs' output.
    pub const fn name(self) -> &'static str {
        match self {
            Format::Long => "long",
            Format::Short => "short",
        }
    }

    /// The format whose blocks have this length.
    pub fn of_block(length: usize) -> Option<Format> {
        FORMATS.into_iter().find(|f| f.user_bits() == length)
    }

    /// The format whose telegrams have this length.
    pub fn of_telegram(length: usize) -> Option<Format> {
        FORMATS.into_iter().find(|f| f.telegram_bits() == length)
    }

    /// The format whose windows have this length.
    pub fn of_window(length: usize) -> Option<Format> {
        FORMATS.into_iter().find(|f| f.window_bits() == length)
    }
}
