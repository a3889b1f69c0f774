//! Searching a capture (document 01, "Search, reading and place"). The search
//! follows `read` (document 02, No. 2).

use crate::bits::all_bits;
use crate::format::FORMATS;
use crate::read::{read_bits, Asked, Reading};
use crate::refusal::{self, Refusal};

/// The longest capture.
pub const CAPTURE_LIMIT: usize = 7_500;

/// The first place that accepts, with its reading (and format) and user bits.
#[derive(Clone, Debug, PartialEq, Eq)]
pub struct Found {
    pub place: usize,
    pub reading: Reading,
    pub user: Vec<u8>,
}

/// Searches a capture.
pub fn search(capture: &[u8]) -> Result<Found, Refusal> {
    if capture.len() > CAPTURE_LIMIT {
        return Err(refusal::LENGTH);
    }
    if !all_bits(capture) {
        return Err(refusal::NOT_A_BIT);
    }
    first_found(capture).ok_or(refusal::NO_PLACE)
}

/// The search itself, of any number of bits: places from 0 up, long before short
/// at one place.
pub fn first_found(capture: &[u8]) -> Option<Found> {
    for place in 0..capture.len() {
        for format in FORMATS {
            let end = place + format.window_bits();
            if end > capture.len() {
                continue;
            }
            let window = &capture[place..end];
            if let Ok((reading, user)) = read_bits(window, format, Asked::Proper) {
                return Some(Found {
                    place,
                    reading,
                    user,
                });
            }
        }
    }
    None
}

/// The accepted stretch of a capture; empty where there is none.
pub fn stretch(capture: &[u8]) -> &[u8] {
    match search(capture) {
        Ok(found) => &capture[found.place..found.place + found.reading.format.window_bits()],
        Err(_) => &capture[..0],
    }
}
