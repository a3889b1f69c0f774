//! The second program: document 01, as document 02, No. 5, No. 2, No. 11, No. 13
//! and No. 9, amends it, written down once more, plainly, so that the main program
//! can be compared with it.
//! Bits are held one to a byte, 0 or 1, earliest sent first.

pub mod appendices;
pub mod bad_words;
pub mod bits;
pub mod capture;
pub mod capture_kinds;
pub mod check;
pub mod conditions;
pub mod cyclic;
pub mod encode;
pub mod format;
pub mod made;
pub mod make;
pub mod next;
pub mod pairs;
pub mod random;
pub mod read;
pub mod refusal;
pub mod rings;
pub mod scrambling;
pub mod telegram;
pub mod words;

pub use capture::{first_found, search, stretch, Found, CAPTURE_LIMIT};
pub use check::check;
pub use encode::{encode, encode_skipping, Encoded};
pub use format::Format;
pub use make::make;
pub use next::{next, next_skipping, pairs, pairs_skipping, Next};
pub use read::{read, read_well_formed, Reading};
pub use refusal::Refusal;
pub use words::Kind;
