//! The proved layers, called through their static library. Nothing checks the
//! declarations here against crates/layers_c/src/lib.rt. Each function tests what
//! the `requires` there asks, and panics where that does not hold. A format
//! crosses as `long`.

mod exported {
    unsafe extern "C" {
        pub fn balise_layers_all_bits(s: *const u8, s_len: usize) -> bool;
        pub fn balise_layers_number(s: *const u8, s_len: usize, at: usize, k: usize) -> u32;
        pub fn balise_layers_write_number(out: *mut u8, out_len: usize, k: usize, x: u32);
        pub fn balise_layers_flip(s: *mut u8, s_len: usize);
        pub fn balise_layers_word(i: u16) -> u16;
        pub fn balise_layers_look_up(word: u16) -> u16;
        pub fn balise_layers_in_group_250(word: u16) -> bool;
        pub fn balise_layers_in_group_20(word: u16) -> bool;
        pub fn balise_layers_scramble(
            b: u16,
            block: *const u8,
            block_len: usize,
            out: *mut u8,
            out_len: usize,
        );
        pub fn balise_layers_descramble(
            b: u16,
            block: *const u8,
            block_len: usize,
            out: *mut u8,
            out_len: usize,
        );
        pub fn balise_layers_add_sum(block: *mut u8, block_len: usize);
        pub fn balise_layers_remove_sum(block: *mut u8, block_len: usize);
        pub fn balise_layers_telegram_bits(long: bool) -> usize;
        pub fn balise_layers_user_bits(long: bool) -> usize;
        pub fn balise_layers_extra_bits(long: bool) -> usize;
        pub fn balise_layers_words(long: bool) -> usize;
        pub fn balise_layers_remainder_f(long: bool, bits: *const u8, bits_len: usize) -> u64;
        pub fn balise_layers_remainder_g(
            long: bool,
            bits: *const u8,
            bits_len: usize,
            out: *mut u64,
            out_len: usize,
        );
        pub fn balise_layers_remainder_fg(
            long: bool,
            bits: *const u8,
            bits_len: usize,
            out: *mut u64,
            out_len: usize,
        );
        pub fn balise_layers_check_bits(
            long: bool,
            bits: *const u8,
            bits_len: usize,
            out: *mut u8,
            out_len: usize,
        );
        pub fn balise_layers_turn(long: bool, remainder: u64) -> usize;
        pub fn balise_layers_off_step(long: bool, telegram: *const u8, telegram_len: usize)
            -> bool;
        pub fn balise_layers_not_repeating(
            long: bool,
            telegram: *const u8,
            telegram_len: usize,
        ) -> bool;
        pub fn balise_layers_thinned_out(
            long: bool,
            telegram: *const u8,
            telegram_len: usize,
        ) -> bool;
        pub fn balise_layers_first_place(capture: *const u8, capture_len: usize) -> usize;
        pub fn balise_layers_first_place_plain(capture: *const u8, capture_len: usize) -> usize;
    }
}

/// Panics unless every byte is 0 or 1, by the largest of them, which takes many at a
/// time.
fn require_bits(s: &[u8]) {
    let largest = s.iter().fold(0, |largest, &byte| byte.max(largest));
    assert!(largest < 2, "a byte other than 0 or 1");
}

/// Panics unless a buffer has this many elements.
fn require_room<T>(out: &[T], count: usize) {
    assert!(count <= out.len(), "an output that is too short");
}

/// Panics unless these are 10 to 1,000 bits.
fn require_block(block: &[u8]) {
    require_bits(block);
    assert!(
        (10..=1000).contains(&block.len()),
        "a block of another length"
    );
}

/// Whether every byte is 0 or 1.
pub fn all_bits(s: &[u8]) -> bool {
    // SAFETY: the pointer and the length are those of a slice.
    unsafe { exported::balise_layers_all_bits(s.as_ptr(), s.len()) }
}

/// The number of the `k` bits of `s` from index `at` on.
pub fn number(s: &[u8], at: usize, k: usize) -> u32 {
    require_bits(s);
    assert!(k < 32, "too many bits for a number");
    assert!(at <= s.len() && k <= s.len() - at, "bits past the end");
    // SAFETY: as above; the tests are the contract's.
    unsafe { exported::balise_layers_number(s.as_ptr(), s.len(), at, k) }
}

/// Writes the lowest `k` binary digits of `x` into the front of `out`.
pub fn write_number(out: &mut [u8], k: usize, x: u32) {
    assert!(k <= 32, "too many digits");
    require_room(out, k);
    // SAFETY: as above.
    unsafe { exported::balise_layers_write_number(out.as_mut_ptr(), out.len(), k, x) }
}

/// Turns each bit into the other.
pub fn flip(s: &mut [u8]) {
    require_bits(s);
    // SAFETY: as above.
    unsafe { exported::balise_layers_flip(s.as_mut_ptr(), s.len()) }
}

/// The word of the number `i`.
pub fn word(i: u16) -> u16 {
    assert!(i < 1024, "no number of a word");
    // SAFETY: the test is the contract's.
    unsafe { exported::balise_layers_word(i) }
}

/// The number of a word, or 1024 plus the number of its kind where the table does
/// not have it: 1274 in the group of 250, 1044 in the group of 20, and 1024 in
/// neither. Of 2048 and above it is 1024.
#[inline]
pub fn look_up(word: u16) -> u16 {
    // SAFETY: the contract asks nothing.
    unsafe { exported::balise_layers_look_up(word) }
}

/// Whether a word is in the group of 250 barred words.
pub fn in_group_250(word: u16) -> bool {
    // SAFETY: the contract asks nothing.
    unsafe { exported::balise_layers_in_group_250(word) }
}

/// Whether a word is in the group of 20 barred words.
pub fn in_group_20(word: u16) -> bool {
    // SAFETY: the contract asks nothing.
    unsafe { exported::balise_layers_in_group_20(word) }
}

/// Scrambles a block into the front of `out`.
pub fn scramble(b: u16, block: &[u8], out: &mut [u8]) {
    require_bits(block);
    require_room(out, block.len());
    // SAFETY: the pointers and lengths are those of slices that do not
    // overlap; the tests are the contract's.
    unsafe {
        exported::balise_layers_scramble(
            b,
            block.as_ptr(),
            block.len(),
            out.as_mut_ptr(),
            out.len(),
        )
    }
}

/// Descrambles a block into the front of `out`.
pub fn descramble(b: u16, block: &[u8], out: &mut [u8]) {
    require_bits(block);
    require_room(out, block.len());
    // SAFETY: as above.
    unsafe {
        exported::balise_layers_descramble(
            b,
            block.as_ptr(),
            block.len(),
            out.as_mut_ptr(),
            out.len(),
        )
    }
}

/// Replaces the first block of ten bits by the sum of all blocks modulo 1024.
pub fn add_sum(block: &mut [u8]) {
    require_block(block);
    // SAFETY: as above.
    unsafe { exported::balise_layers_add_sum(block.as_mut_ptr(), block.len()) }
}

/// Undoes `add_sum`.
pub fn remove_sum(block: &mut [u8]) {
    require_block(block);
    // SAFETY: as above.
    unsafe { exported::balise_layers_remove_sum(block.as_mut_ptr(), block.len()) }
}

/// n, the bits of a telegram.
pub fn telegram_bits(long: bool) -> usize {
    // SAFETY: the contract asks nothing.
    unsafe { exported::balise_layers_telegram_bits(long) }
}

/// m, the bits of a user block.
pub fn user_bits(long: bool) -> usize {
    // SAFETY: the contract asks nothing.
    unsafe { exported::balise_layers_user_bits(long) }
}

/// r, the bits of a window beyond n.
pub fn extra_bits(long: bool) -> usize {
    // SAFETY: the contract asks nothing.
    unsafe { exported::balise_layers_extra_bits(long) }
}

/// The words of a telegram.
pub fn words(long: bool) -> usize {
    // SAFETY: the contract asks nothing.
    unsafe { exported::balise_layers_words(long) }
}

/// The remainder of bits by f.
pub fn remainder_f(long: bool, bits: &[u8]) -> u64 {
    require_bits(bits);
    // SAFETY: the pointer and the length are those of a slice; the test is the
    // contract's.
    unsafe { exported::balise_layers_remainder_f(long, bits.as_ptr(), bits.len()) }
}

/// The remainder of bits by g into the first two words of `out`, the high one
/// first.
pub fn remainder_g(long: bool, bits: &[u8], out: &mut [u64]) {
    require_bits(bits);
    require_room(out, 2);
    // SAFETY: as above.
    unsafe {
        exported::balise_layers_remainder_g(
            long,
            bits.as_ptr(),
            bits.len(),
            out.as_mut_ptr(),
            out.len(),
        )
    }
}

/// The remainder of bits by f*g into the first two words of `out`, the high one
/// first.
pub fn remainder_fg(long: bool, bits: &[u8], out: &mut [u64]) {
    require_bits(bits);
    require_room(out, 2);
    // SAFETY: as above.
    unsafe {
        exported::balise_layers_remainder_fg(
            long,
            bits.as_ptr(),
            bits.len(),
            out.as_mut_ptr(),
            out.len(),
        )
    }
}

/// The check bits of the bits above them into the first 85 bytes of `out`.
pub fn check_bits(long: bool, bits: &[u8], out: &mut [u8]) {
    require_bits(bits);
    require_room(out, 85);
    // SAFETY: as above.
    unsafe {
        exported::balise_layers_check_bits(
            long,
            bits.as_ptr(),
            bits.len(),
            out.as_mut_ptr(),
            out.len(),
        )
    }
}

/// The turn that a remainder by f belongs to, or n where none does.
pub fn turn(long: bool, remainder: u64) -> usize {
    assert!(remainder < 1024, "no remainder by f");
    // SAFETY: the test is the contract's.
    unsafe { exported::balise_layers_turn(long, remainder) }
}

/// What the contracts of the three conditions ask of a telegram.
fn require_telegram(long: bool, telegram: &[u8]) {
    require_bits(telegram);
    assert_eq!(telegram.len(), telegram_bits(long));
}

/// Whether condition 2 holds.
pub fn off_step(long: bool, telegram: &[u8]) -> bool {
    require_telegram(long, telegram);
    // SAFETY: as above.
    unsafe { exported::balise_layers_off_step(long, telegram.as_ptr(), telegram.len()) }
}

/// Whether condition 3 holds.
pub fn not_repeating(long: bool, telegram: &[u8]) -> bool {
    require_telegram(long, telegram);
    // SAFETY: as above.
    unsafe { exported::balise_layers_not_repeating(long, telegram.as_ptr(), telegram.len()) }
}

/// Whether condition 4 holds.
pub fn thinned_out(long: bool, telegram: &[u8]) -> bool {
    require_telegram(long, telegram);
    // SAFETY: as above.
    unsafe { exported::balise_layers_thinned_out(long, telegram.as_ptr(), telegram.len()) }
}

/// A place as it crosses: that of the capture's end stands for none.
fn place_in(capture: &[u8], place: usize) -> Option<usize> {
    (place < capture.len()).then_some(place)
}

/// The first place of a capture, of any length, with a window that is read.
pub fn first_place(capture: &[u8]) -> Option<usize> {
    require_bits(capture);
    let (start, length) = (capture.as_ptr(), capture.len());
    // SAFETY: as above.
    let place = unsafe { exported::balise_layers_first_place(start, length) };
    place_in(capture, place)
}

/// The same by the plain search, which reads the windows at each place in order.
pub fn first_place_plain(capture: &[u8]) -> Option<usize> {
    require_bits(capture);
    let (start, length) = (capture.as_ptr(), capture.len());
    // SAFETY: as above.
    let place = unsafe { exported::balise_layers_first_place_plain(start, length) };
    place_in(capture, place)
}
