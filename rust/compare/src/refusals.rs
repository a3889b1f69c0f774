//! Inputs that provoke each refusal (document 01, "When the bench says no"; of
//! the window calls, document 02, No. 2, of make, No. 11, of next, No. 9, and of a word
//! that is not in the table, No. 13).

use crate::telegrams::*;
use balise::{Kind, Refusal};
use second::appendices::{block_without_a_pair, well_formed_not_proper};
use second::bad_words::{bad_words, word_of_kind, BadWord};
use second::bits::{flip, turn_left};
use second::conditions::failing_conditions;
use second::encode::PAIRS;
use second::format::{Format, FORMATS};
use second::random::Random;
use second::refusal;
use second::telegram::{self, cut};
use second::words::KINDS;

/// A call with its input, and the length of the output that it is lent.
#[derive(Clone, Debug)]
pub enum Call {
    Encode(Vec<u8>, usize),
    EncodePlain(Vec<u8>, usize),
    /// The block, B, esb and the room.
    Make(Vec<u8>, u64, u64, usize),
    /// The same.
    Next(Vec<u8>, u64, u64, usize),
    Check(Vec<u8>),
    Read(Vec<u8>, usize),
    ReadWellFormed(Vec<u8>, usize),
    Search(Vec<u8>),
    SearchPlain(Vec<u8>),
}

impl Call {
    /// The name of the call.
    pub fn name(&self) -> &'static str {
        match self {
            Call::Encode(..) => "encode",
            Call::EncodePlain(..) => "encode_plain",
            Call::Make(..) => "make",
            Call::Next(..) => "next",
            Call::Check(..) => "check",
            Call::Read(..) => "read",
            Call::ReadWellFormed(..) => "read_well_formed",
            Call::Search(..) => "search",
            Call::SearchPlain(..) => "search_plain",
        }
    }

    /// The refusal of the proved call, if it refuses.
    pub fn refusal(&self) -> Option<Refusal> {
        match self {
            Call::Encode(block, room) => balise::encode(block, &mut vec![0; *room]).err(),
            Call::EncodePlain(block, room) => {
                balise::encode_plain(block, &mut vec![0; *room]).err()
            }
            Call::Make(block, b, esb, room) => {
                balise::make(block, *b, *esb, &mut vec![0; *room]).err()
            }
            Call::Next(block, b, esb, room) => {
                balise::next(block, *b, *esb, &mut vec![0; *room]).err()
            }
            Call::Check(telegram) => balise::check(telegram).err(),
            Call::Read(window, room) => balise::read(window, &mut vec![0; *room]).err(),
            Call::ReadWellFormed(window, room) => {
                balise::read_well_formed(window, &mut vec![0; *room]).err()
            }
            Call::Search(capture) => balise::search(capture).err(),
            Call::SearchPlain(capture) => balise::search_plain(capture).err(),
        }
    }
}

/// A list with one byte that is no bit.
fn with_no_bit(mut list: Vec<u8>) -> Vec<u8> {
    list[0] = 2;
    list
}

/// A block that both encoders refuse alike, lent this room.
fn both_encode(refusal: Refusal, block: Vec<u8>, room: usize) -> [(Refusal, Call); 2] {
    [
        (refusal, Call::Encode(block.clone(), room)),
        (refusal, Call::EncodePlain(block, room)),
    ]
}

/// A capture that both searches refuse alike.
fn both_search(refusal: Refusal, capture: Vec<u8>) -> [(Refusal, Call); 2] {
    [
        (refusal, Call::Search(capture.clone())),
        (refusal, Call::SearchPlain(capture)),
    ]
}

/// A window that both window calls refuse alike, lent this room.
fn both_read(refusal: Refusal, window: Vec<u8>, room: usize) -> [(Refusal, Call); 2] {
    [
        (refusal, Call::Read(window.clone(), room)),
        (refusal, Call::ReadWellFormed(window, room)),
    ]
}

/// Lengths, bytes and room: refusals 1, 2 and 3.
fn before_the_bits(random: &mut Random, format: Format) -> Vec<(Refusal, Call)> {
    let (m, n, l) = (
        format.user_bits(),
        format.telegram_bits(),
        format.window_bits(),
    );
    let (block, telegram, window) = (random.bits(m), random.bits(n), random.bits(l));
    let mut calls = vec![
        (Refusal::Length, Call::Check(random.bits(n + 1))),
        (Refusal::NotBit, Call::Check(with_no_bit(telegram))),
    ];
    calls.extend(both_encode(Refusal::Length, random.bits(m - 1), n));
    calls.extend(both_encode(Refusal::NotBit, with_no_bit(block.clone()), n));
    calls.extend(both_encode(Refusal::OutputShort, block, n - 1));
    calls.extend(both_read(Refusal::Length, random.bits(l - 1), m));
    calls.extend(both_read(Refusal::NotBit, with_no_bit(window.clone()), m));
    calls.extend(both_read(Refusal::OutputShort, window, m - 1));
    calls
}

/// A telegram that check refuses, and a window of it that both window calls
/// refuse.
fn all_three(refusal: Refusal, telegram: Vec<u8>, format: Format) -> Vec<(Refusal, Call)> {
    let window = cut(&telegram, 0, format.window_bits(), false);
    let mut calls = vec![(refusal, Call::Check(telegram))];
    calls.extend(both_read(refusal, window, format.user_bits()));
    calls
}

/// Refusal 9 of a word.
fn not_word((index, kind): BadWord) -> Refusal {
    let kind = match kind {
        second::Kind::Group250 => Kind::Group250,
        second::Kind::Group20 => Kind::Group20,
        second::Kind::Other => Kind::Other,
    };
    Refusal::NotWord { kind, index }
}

/// A word of each kind at the first, some and the last index of the shaped data,
/// and windows of these telegrams at any turn, both ways up. The check bits are put
/// right, so that as a rule some of the last ten words are bad as well.
fn no_words(random: &mut Random, format: Format) -> Vec<(Refusal, Call)> {
    let (m, l) = (format.user_bits(), format.window_bits());
    let telegram = random_telegram(random, format);
    let last = format.blocks() - 1;
    let mut calls = Vec::new();
    for kind in KINDS {
        for index in [0, random.below(last), last] {
            let refusal = not_word((index, kind));
            let other = with_word(&telegram, format, index, word_of_kind(random, kind));
            for flipped in [false, true] {
                let window = cut(&other, random.below(other.len()), l, flipped);
                calls.extend(both_read(refusal, window, m));
            }
            calls.extend(all_three(refusal, other, format));
        }
    }
    calls
}

/// Telegrams and windows that are not well-formed: refusals 5 to 9.
fn not_well_formed(random: &mut Random, format: Format) -> Vec<(Refusal, Call)> {
    let (m, l) = (format.user_bits(), format.window_bits());
    let telegram = random_telegram(random, format);
    let mut window = cut(&telegram, 0, l, false);
    window[l - 1] ^= 1;
    let mut damaged = telegram.clone();
    damaged[0] ^= 1;
    let no_control = with_bits(&telegram, format, format.shaped_bits(), &[0, 0, 0]);
    let mut calls = vec![
        (Refusal::NoTurn, Call::Check(turn_left(&telegram, 1))),
        (Refusal::Control, Call::Check(flip(&telegram))),
    ];
    calls.extend(both_read(Refusal::EndsDiffer, window, m));
    calls.extend(all_three(Refusal::NotDivisible, damaged, format));
    calls.extend(all_three(
        Refusal::NoTurn,
        vec![0; format.telegram_bits()],
        format,
    ));
    calls.extend(all_three(Refusal::Control, no_control, format));
    calls.extend(no_words(random, format));
    calls
}

/// Well-formed telegrams that are not proper, and windows of them: refusals 10
/// to 12 of check and read. The other window call gives none of these.
fn not_proper() -> Vec<(Refusal, Call)> {
    let mut calls = Vec::new();
    for telegram in well_formed_not_proper() {
        let format = Format::of_telegram(telegram.len()).expect("a telegram");
        let refusal = match failing_conditions(&telegram, format).next() {
            Some(refusal::OFF_STEP) => Refusal::OffStep,
            Some(refusal::PERIOD) => Refusal::Repeating,
            Some(refusal::THINNED) => Refusal::Thinned,
            number => panic!("{number:?}"),
        };
        let window = cut(&telegram, 0, format.window_bits(), false);
        calls.push((refusal, Call::Check(telegram)));
        calls.push((refusal, Call::Read(window, format.user_bits())));
    }
    calls
}

/// For each kind the first esb with which the first bad word of a block's telegram
/// is of it: refusal 9 of make and, with what make does not write, of the others. B
/// is that of a pair, so that the word is one of the last nine.
fn no_last_words(block: &[u8], b: u16, format: Format) -> Vec<(Refusal, Call)> {
    let mut calls = Vec::new();
    for kind in KINDS {
        let with = |esb| {
            let telegram = telegram::make(block, b, esb, format);
            let first = *bad_words(&telegram).first()?;
            (first.1 == kind).then_some((esb, telegram, not_word(first)))
        };
        let (esb, telegram, refusal) = (0..1024).find_map(with).expect("an esb");
        let room = format.telegram_bits();
        let make = Call::Make(block.to_vec(), b.into(), esb.into(), room);
        calls.push((refusal, make));
        calls.extend(all_three(refusal, telegram, format));
    }
    calls
}

/// A block, B, esb and room that both make and next refuse alike.
fn both_with_pair(
    refusal: Refusal,
    block: &[u8],
    (b, esb): (u64, u64),
    room: usize,
) -> [(Refusal, Call); 2] {
    [
        (refusal, Call::Make(block.to_vec(), b, esb, room)),
        (refusal, Call::Next(block.to_vec(), b, esb, room)),
    ]
}

/// A block with its pair, given to make and next with one fault each: refusals 1, 2,
/// 27 and 3; and refusal 9 of make.
fn of_make_and_next(random: &mut Random, format: Format) -> Vec<(Refusal, Call)> {
    let n = format.telegram_bits();
    let block = random.bits(format.user_bits());
    let pair = encoded(&block).0;
    let (b, esb) = (u64::from(pair.b), u64::from(pair.esb));
    let longer = [&block[..], &[0]].concat();
    let no_bit = with_no_bit(block.clone());
    let mut calls = no_last_words(&block, pair.b, format);
    calls.extend(both_with_pair(Refusal::Length, &longer, (b, esb), n));
    calls.extend(both_with_pair(Refusal::NotBit, &no_bit, (b, esb), n));
    for start in [(4096, esb), (b, 1024)] {
        calls.extend(both_with_pair(Refusal::PairTooLarge, &block, start, n));
    }
    calls.extend(both_with_pair(
        Refusal::OutputShort,
        &block,
        (b, esb),
        n - 1,
    ));
    calls
}

/// Every refusal, with inputs of every call that gives it; but not refusal 4 of the
/// plain engine, which takes seconds, and which the test `engines` has.
pub fn provoking(random: &mut Random) -> Vec<(Refusal, Call)> {
    let limit = balise::CAPTURE_LIMIT;
    let no_pair = Call::Encode(block_without_a_pair(), Format::Long.telegram_bits());
    let no_bit = with_no_bit(random.bits(limit));
    let mut calls = vec![(Refusal::NoPair { tried: PAIRS }, no_pair)];
    calls.extend(both_search(Refusal::Length, random.bits(limit + 1)));
    calls.extend(both_search(Refusal::NotBit, no_bit));
    calls.extend(both_search(Refusal::NoPlace, vec![]));
    calls.extend(both_search(Refusal::NoPlace, vec![0; limit]));
    for format in FORMATS {
        calls.extend(before_the_bits(random, format));
        calls.extend(not_well_formed(random, format));
        calls.extend(of_make_and_next(random, format));
    }
    calls.extend(not_proper());
    calls
}
