//! The two formats and their sizes (document 01, "What the bench takes in").

/// The format of a telegram. The length of an input picks it.
#[derive(Clone, Copy, Debug, PartialEq, Eq, Hash)]
pub enum Format {
    Long,
    Short,
}

impl Format {
    /// Both formats, the larger first.
    pub const ALL: [Format; 2] = [Format::Long, Format::Short];

    /// m, the bits of a user block: 830 long, 210 short.
    pub const fn user_bits(self) -> usize {
        match self {
            Format::Long => 830,
            Format::Short => 210,
        }
    }

    /// The words of a telegram, eleven bits each: 93 long, 31 short.
    pub const fn words(self) -> usize {
        match self {
            Format::Long => 93,
            Format::Short => 31,
        }
    }

    /// n, the bits of a telegram: 1023 long, 341 short.
    pub const fn telegram_bits(self) -> usize {
        11 * self.words()
    }

    /// r, the bits of a window that repeat its first ones: 77 long, 121 short.
    pub const fn extra_bits(self) -> usize {
        match self {
            Format::Long => 77,
            Format::Short => 121,
        }
    }

    /// n + r, the bits of a window: 1100 long, 462 short.
    pub const fn window_bits(self) -> usize {
        self.telegram_bits() + self.extra_bits()
    }
}

/// The bits of the largest user block: room for what [`read`](crate::read) writes.
pub const MAX_USER_BITS: usize = Format::Long.user_bits();

/// The bits of the largest telegram: room for what [`encode`](crate::encode),
/// [`make`](crate::make) and [`next`](crate::next) write.
pub const MAX_TELEGRAM_BITS: usize = Format::Long.telegram_bits();

/// The bits of the largest window.
pub const MAX_WINDOW_BITS: usize = Format::Long.window_bits();

/// The most bits of a capture.
pub const CAPTURE_LIMIT: usize = 7500;
