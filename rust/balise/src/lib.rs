//! The proved calls, through their static library. Each takes what it is given
//! and answers or refuses; nothing here panics.
//!
//! Bits are held one to a byte, 0 or 1, earliest sent first. An output has room
//! for at least the bits that a call writes into its front; what is beyond them
//! is kept, and a refusal keeps every byte.
//!
//! ```
//! use balise::{Kind, Refusal, MAX_TELEGRAM_BITS, MAX_USER_BITS};
//!
//! let block = [1; 210];
//! let mut output = [0; MAX_TELEGRAM_BITS];
//! let encoded = balise::encode(&block, &mut output)?;
//! let telegram = &output[..encoded.format.telegram_bits()];
//! assert_eq!(balise::check(telegram), Ok(encoded.format));
//!
//! let window: Vec<u8> = telegram.iter().copied().cycle().skip(200).take(462).collect();
//! let mut user = [0; MAX_USER_BITS];
//! let reading = balise::read(&window, &mut user)?;
//! assert_eq!((reading.b, reading.turn), (encoded.b, 200));
//! assert_eq!(user[..reading.format.user_bits()], block);
//! assert_eq!(balise::read(&window[1..], &mut user), Err(Refusal::Length));
//!
//! let user = &user[..reading.format.user_bits()];
//! let mut again = [0; MAX_TELEGRAM_BITS];
//! let format = balise::make(user, reading.b.into(), reading.esb.into(), &mut again)?;
//! assert_eq!(again[..format.telegram_bits()], *telegram);
//!
//! // with B 0 the word after the shaped data is 00100000000
//! let (kind, index) = (Kind::Group250, 21);
//! let refused = Err(Refusal::NotWord { kind, index });
//! assert_eq!(balise::make(user, 0, 0, &mut again), refused);
//!
//! // every pair that gives a proper telegram, in counting order
//! let mut pairs = balise::pairs(&block)?;
//! let first = pairs.next().expect("the pair of encode");
//! assert_eq!((first.pair.b, first.pair.esb), (encoded.b, encoded.esb));
//! assert_eq!(first.telegram, telegram);
//! for choice in pairs.take(9) {
//!     assert_eq!(balise::check(&choice.telegram), Ok(choice.pair.format));
//! }
//! # Ok::<(), Refusal>(())
//! ```
//!
//! That the declarations are those of crates/balise_c/src/lib.rt, the fields those
//! of crates/balise/specs/AsNumber.antt, and the numbers of the refusals those of
//! crates/refusals/specs/Refused.antt, is tested and not proved. include/balise.h
//! declares the same for C.

mod format;
mod kind;
mod pairs;
mod refusal;

pub use format::{Format, CAPTURE_LIMIT, MAX_TELEGRAM_BITS, MAX_USER_BITS, MAX_WINDOW_BITS};
pub use kind::Kind;
pub use pairs::{pairs, pairs_from, Choice, Pair, Pairs};
pub use refusal::Refusal;

mod exported {
    unsafe extern "C" {
        pub fn balise_encode(
            block: *const u8,
            block_len: usize,
            output: *mut u8,
            output_len: usize,
        ) -> u64;
        pub fn balise_encode_plain(
            block: *const u8,
            block_len: usize,
            output: *mut u8,
            output_len: usize,
        ) -> u64;
        pub fn balise_make(
            block: *const u8,
            block_len: usize,
            b: u64,
            esb: u64,
            output: *mut u8,
            output_len: usize,
        ) -> u64;
        pub fn balise_next(
            block: *const u8,
            block_len: usize,
            b: u64,
            esb: u64,
            output: *mut u8,
            output_len: usize,
        ) -> u64;
        pub fn balise_check(telegram: *const u8, telegram_len: usize) -> u64;
        pub fn balise_read(
            window: *const u8,
            window_len: usize,
            output: *mut u8,
            output_len: usize,
        ) -> u64;
        pub fn balise_read_well_formed(
            window: *const u8,
            window_len: usize,
            output: *mut u8,
            output_len: usize,
        ) -> u64;
        pub fn balise_search(capture: *const u8, capture_len: usize) -> u64;
        pub fn balise_search_plain(capture: *const u8, capture_len: usize) -> u64;
    }
}

/// What the encoder found.
#[derive(Clone, Copy, Debug, PartialEq, Eq)]
pub struct Encoded {
    pub format: Format,
    /// The scrambling bits of the first pair whose telegram is proper.
    pub b: u16,
    /// Its extra shaping bits.
    pub esb: u16,
    /// The pairs tried up to it.
    pub count: u32,
}

/// What a window says besides the user bits.
#[derive(Clone, Copy, Debug, PartialEq, Eq)]
pub struct Reading {
    pub format: Format,
    /// The scrambling bits.
    pub b: u16,
    /// How far into the telegram the window begins.
    pub turn: usize,
    /// Whether all bits of the window are flipped.
    pub flipped: bool,
    /// The extra shaping bits.
    pub esb: u16,
}

/// The first place of a capture at which a window is read.
#[derive(Clone, Copy, Debug, PartialEq, Eq)]
pub struct Found {
    /// The bits of the capture before the window.
    pub place: usize,
    pub reading: Reading,
}

/// An answer as the library gives it, its lowest fields taken away.
struct Answer(u64);

impl Answer {
    /// The lowest bits, taken away.
    fn take(&mut self, bits: u32) -> u64 {
        let value = self.0 & ((1 << bits) - 1);
        self.0 >>= bits;
        value
    }

    fn format(&mut self) -> Format {
        match self.take(1) {
            0 => Format::Long,
            _ => Format::Short,
        }
    }

    fn encoded(&mut self) -> Encoded {
        Encoded {
            format: self.format(),
            b: self.take(12) as u16,
            esb: self.take(10) as u16,
            count: self.take(23) as u32,
        }
    }

    /// The fields of `encoded`, with a bit in the place of the count: it is 1 where
    /// there are no more pairs.
    fn pair(&mut self) -> Option<Pair> {
        let pair = Pair {
            format: self.format(),
            b: self.take(12) as u16,
            esb: self.take(10) as u16,
        };
        (self.take(1) == 0).then_some(pair)
    }

    /// The fields of a window's answer are those of a search; the place is 0.
    fn reading(&mut self) -> Reading {
        self.found().reading
    }

    fn found(&mut self) -> Found {
        let format = self.format();
        let flipped = self.take(1) == 1;
        let b = self.take(12) as u16;
        let turn = self.take(10) as usize;
        let place = self.take(16) as usize;
        let esb = self.take(10) as u16;
        let reading = Reading {
            format,
            b,
            turn,
            flipped,
            esb,
        };
        Found { place, reading }
    }

    /// Refusal 9, whose kind and index have the places of b and the turn.
    fn not_word(&mut self) -> Refusal {
        let fields = self.reading();
        Refusal::NotWord {
            kind: Kind::of_number(fields.b),
            index: fields.turn,
        }
    }

    /// The refusal with this number and what it carries.
    fn refusal(&mut self, number: u8) -> Refusal {
        match Refusal::of_number(number) {
            Refusal::NoPair { .. } => Refusal::NoPair {
                tried: self.encoded().count,
            },
            Refusal::NotWord { .. } => self.not_word(),
            refusal => refusal,
        }
    }

    /// What the fields say after the number 0, or the refusal.
    fn result<T>(mut self, fields: impl FnOnce(&mut Answer) -> T) -> Result<T, Refusal> {
        match self.take(8) as u8 {
            0 => Ok(fields(&mut self)),
            number => Err(self.refusal(number)),
        }
    }
}

/// A call that takes a list and an output.
type WithOutput = unsafe extern "C" fn(*const u8, usize, *mut u8, usize) -> u64;

/// What one of the calls with an output answers.
fn answer(call: WithOutput, input: &[u8], output: &mut [u8]) -> Answer {
    // SAFETY: the pointers and lengths are those of slices that do not overlap,
    // and the contracts ask nothing.
    Answer(unsafe {
        call(
            input.as_ptr(),
            input.len(),
            output.as_mut_ptr(),
            output.len(),
        )
    })
}

/// A call that takes a block, a pair and an output.
type WithPair = unsafe extern "C" fn(*const u8, usize, u64, u64, *mut u8, usize) -> u64;

/// What one of the calls with a pair answers.
fn answer_to_pair(call: WithPair, block: &[u8], b: u64, esb: u64, output: &mut [u8]) -> Answer {
    // SAFETY: as for `answer`.
    Answer(unsafe {
        call(
            block.as_ptr(),
            block.len(),
            b,
            esb,
            output.as_mut_ptr(),
            output.len(),
        )
    })
}

/// What one of the encoders answers.
fn encode_by(call: WithOutput, block: &[u8], output: &mut [u8]) -> Result<Encoded, Refusal> {
    answer(call, block, output).result(Answer::encoded)
}

/// Encodes a block of [`Format::user_bits`], 830 or 210. The first pair's
/// telegram goes into the front of `output`, which needs room for
/// [`Format::telegram_bits`], 1023 or 341; [`MAX_TELEGRAM_BITS`] is enough for
/// both. A refusal keeps every byte.
///
/// Pairs that cannot be proper are passed over, and counted all the same: a block
/// takes far less than a millisecond as a rule, and `NoPair` some ten.
///
/// Refuses with `Length`, `NotBit`, `OutputShort` and `NoPair`.
pub fn encode(block: &[u8], output: &mut [u8]) -> Result<Encoded, Refusal> {
    encode_by(exported::balise_encode, block, output)
}

/// Encodes a block by the plain search, which forms and tests each pair in order.
/// It answers and writes as [`encode`], whatever the block, by proof. It is there to
/// compare that with, and takes some thousand times as long: seconds for a block
/// without a pair.
///
/// Refuses with `Length`, `NotBit`, `OutputShort` and `NoPair`.
pub fn encode_plain(block: &[u8], output: &mut [u8]) -> Result<Encoded, Refusal> {
    encode_by(exported::balise_encode_plain, block, output)
}

/// Makes the well-formed telegram of a block of [`Format::user_bits`], 830 or 210,
/// the scrambling bits `b` and the extra shaping bits `esb`, without a search. It
/// goes into the front of `output`, which needs room for
/// [`Format::telegram_bits`], 1023 or 341; [`MAX_TELEGRAM_BITS`] is enough for
/// both. A refusal keeps every byte. With the user bits that a window call wrote,
/// and `b` and `esb` of its [`Reading`], it is the telegram that was read. Whether
/// it is proper, [`check`] says.
///
/// Refuses, tested in this order, with `Length`, `NotBit`, `PairTooLarge` where
/// `b` is over 4095 or `esb` over 1023, `OutputShort`, and `NotWord` where a word
/// of the telegram, the last ten included, is not in the table: so with most
/// pairs. The word it names is one of the last ten: those before them come from the
/// table.
pub fn make(block: &[u8], b: u64, esb: u64, output: &mut [u8]) -> Result<Format, Refusal> {
    answer_to_pair(exported::balise_make, block, b, esb, output).result(Answer::format)
}

/// The first pair at or after `b`, `esb`, in counting order, with which a block of
/// [`Format::user_bits`], 830 or 210, gives a proper telegram; the telegram goes into
/// the front of `output`, which needs room for [`Format::telegram_bits`], 1023 or 341;
/// [`MAX_TELEGRAM_BITS`] is enough for both. `None` where there are no more; `output`
/// is then kept, as a refusal keeps it. Counting order goes by B, and then by esb.
///
/// From 0, 0 it is the pair and the telegram of [`encode`]; and where that refuses
/// with `NoPair`, `None`. Going on from [`Pair::after`] of each answer gives every
/// pair: [`pairs`] does so.
///
/// Refuses, tested in this order, with `Length`, `NotBit`, `PairTooLarge` where `b` is
/// over 4095 or `esb` over 1023, and `OutputShort`.
pub fn next(block: &[u8], b: u64, esb: u64, output: &mut [u8]) -> Result<Option<Pair>, Refusal> {
    answer_to_pair(exported::balise_next, block, b, esb, output).result(Answer::pair)
}

/// The format of a proper telegram, of [`Format::telegram_bits`], 1023 or 341.
///
/// Refuses with `Length`, `NotBit`, `NotDivisible`, `NoTurn`, `Control`,
/// `NotWord`, `OffStep`, `Repeating` and `Thinned`.
pub fn check(telegram: &[u8]) -> Result<Format, Refusal> {
    // SAFETY: the pointer and the length are those of a slice, and the contract
    // asks nothing.
    let answer = Answer(unsafe { exported::balise_check(telegram.as_ptr(), telegram.len()) });
    answer.result(Answer::format)
}

/// Reads a window of a proper telegram, of [`Format::window_bits`], 1100 or 462.
/// Its user bits go into the front of `output`, which needs room for
/// [`Format::user_bits`], 830 or 210; [`MAX_USER_BITS`] is enough for both. A
/// refusal keeps every byte.
///
/// Refuses with `Length`, `NotBit`, `OutputShort`, `EndsDiffer`, `NotDivisible`,
/// `NoTurn`, `Control` and `NotWord`, and with `OffStep`, `Repeating` and
/// `Thinned` where the telegram is well-formed and not fit to burn.
///
/// Surely refused, by this call and by [`read_well_formed`]: a window of a
/// well-formed telegram of which one or more bits are changed, all within 75
/// neighbouring ones, or at most 14 anywhere (16 of a short window), with
/// `EndsDiffer` or `NotDivisible`; one in which 1 to 4 bits were lost at one place
/// or put in there, 21 bits or more from either edge, with `EndsDiffer`.
/// docs/DAMAGE.md has it all.
pub fn read(window: &[u8], output: &mut [u8]) -> Result<Reading, Refusal> {
    answer(exported::balise_read, window, output).result(Answer::reading)
}

/// Reads a window of a well-formed telegram, proper or not: for boxes that are
/// to be read and not approved. It answers and writes as [`read`]; but where that
/// refuses with `OffStep`, `Repeating` or `Thinned`, it reads the window.
///
/// Refuses with `Length`, `NotBit`, `OutputShort`, `EndsDiffer`, `NotDivisible`,
/// `NoTurn`, `Control` and `NotWord`.
pub fn read_well_formed(window: &[u8], output: &mut [u8]) -> Result<Reading, Refusal> {
    answer(exported::balise_read_well_formed, window, output).result(Answer::reading)
}

/// Searches a capture of at most [`CAPTURE_LIMIT`] bits for the first window that
/// [`read`] accepts: places from 0 up, long before short at one place. A window of
/// a telegram that is well-formed and not proper is passed over. After one pass that
/// tests every byte, the time grows at most with the place that is found, or with the
/// length where there is none, whatever the bits.
///
/// Refuses with `Length`, `NotBit` and `NoPlace`.
pub fn search(capture: &[u8]) -> Result<Found, Refusal> {
    // SAFETY: as for `check`.
    let answer = Answer(unsafe { exported::balise_search(capture.as_ptr(), capture.len()) });
    answer.result(Answer::found)
}

/// Searches a capture by the plain search, which reads the windows at each place in
/// order: the answers of [`search`], whatever the capture, by proof. It is there to
/// compare [`search`] with, and takes some thousand times as long on captures with
/// many windows that are refused.
///
/// Refuses as [`search`].
pub fn search_plain(capture: &[u8]) -> Result<Found, Refusal> {
    // SAFETY: as for `check`.
    let answer = Answer(unsafe { exported::balise_search_plain(capture.as_ptr(), capture.len()) });
    answer.result(Answer::found)
}

/// The window that `search` finds, as a part of the capture itself; empty where
/// it finds none. The window that an answer names lies in the capture.
pub fn stretch(capture: &[u8]) -> &[u8] {
    match search(capture) {
        Ok(found) => &capture[found.place..][..found.reading.format.window_bits()],
        Err(_) => &capture[..0],
    }
}
