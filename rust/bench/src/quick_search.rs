//! The first place of a capture, in plain Rust with the algorithm of the proved quick
//! search, written for speed.

use crate::plain::ring_is_read;
use second::format::Format;

/// Whether every byte is a bit, by the loop that stops at the first that is none.
pub fn all_bits_by_loop(bytes: &[u8]) -> bool {
    for &byte in bytes {
        if byte > 1 {
            return false;
        }
    }
    true
}

/// The same by an iterator.
pub fn all_bits_by_all(bytes: &[u8]) -> bool {
    bytes.iter().all(|&byte| byte < 2)
}

/// The same by the largest byte, which takes many at a time.
pub fn all_bits_by_largest(bytes: &[u8]) -> bool {
    bytes.iter().fold(0, |largest, &byte| byte.max(largest)) < 2
}

/// The first place of a capture, of any length, with a window that is read. Panics
/// where a byte is no bit.
pub fn first_place(capture: &[u8]) -> Option<usize> {
    const LONG: Format = Format::Long;
    const SHORT: Format = Format::Short;
    assert!(all_bits_by_largest(capture), "a byte other than 0 or 1");
    let (mut long, mut short) = (Walk::default(), Walk::default());
    while long.place < capture.len() || short.place < capture.len() {
        if long.place <= short.place {
            if long.reads::<{ LONG.telegram_bits() }, { LONG.extra_bits() }>(LONG, capture) {
                return Some(long.place);
            }
        } else if short.reads::<{ SHORT.telegram_bits() }, { SHORT.extra_bits() }>(SHORT, capture) {
            return Some(short.place);
        }
    }
    None
}

/// The walk of a format through a capture: its place, and whether a refused run goes on
/// up to it.
#[derive(Default)]
struct Walk {
    place: usize,
    refused: bool,
}

impl Walk {
    /// Whether the window of the format, with N and R bits, is read at the place; if
    /// not, the walk goes on.
    fn reads<const N: usize, const R: usize>(&mut self, format: Format, capture: &[u8]) -> bool {
        let Some(window) = capture.get(self.place..self.place + N + R) else {
            self.place = capture.len();
            return false;
        };
        let (ring, extra) = window.split_at(N);
        let mut ends = ring[..R].iter().zip(extra);
        if let Some(last) = ends.rposition(|(bit, other)| bit != other) {
            self.place += last + 1;
            self.refused = false;
            return false;
        }
        if !self.refused && ring_is_read(format, ring) {
            return true;
        }
        self.place += R;
        self.refused = true;
        false
    }
}
