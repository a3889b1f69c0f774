//! The public calls of both programs on one input. They must answer the same,
//! with what a refusal carries, and leave the same bytes.

use second::bits::{flip, turn_right};
use second::format::Format;
use second::random::Random;
use second::telegram::cut;
use second::{Encoded, Found, Kind, Next, Reading, Refusal};
use std::collections::{BTreeMap, BTreeSet};

/// How often each number was answered; 0 stands for no refusal. And how often
/// refusal 9 named each index and kind.
#[derive(Default)]
pub struct Tally {
    numbers: BTreeMap<u8, usize>,
    words: BTreeMap<(usize, Kind), usize>,
}

impl Tally {
    pub fn add<T>(&mut self, answer: Result<T, Refusal>) {
        let refusal = answer.err();
        let number = refusal.map_or(0, Refusal::number);
        *self.numbers.entry(number).or_default() += 1;
        if let Some(Refusal::Word { kind, index }) = refusal {
            *self.words.entry((index, kind)).or_default() += 1;
        }
    }

    /// The numbers that were answered.
    pub fn numbers(&self) -> Vec<u8> {
        self.numbers.keys().copied().collect()
    }

    /// The bad words that were named, each by its index and kind.
    pub fn words(&self) -> BTreeSet<(usize, Kind)> {
        self.words.keys().copied().collect()
    }

    /// The kinds that were named.
    pub fn kinds(&self) -> BTreeSet<Kind> {
        self.words.keys().map(|&(_, kind)| kind).collect()
    }

    /// The indices that were named.
    pub fn indices(&self) -> BTreeSet<usize> {
        self.words.keys().map(|&(index, _)| index).collect()
    }

    pub fn total(&self) -> usize {
        self.numbers.values().sum()
    }

    pub fn print(&self, what: &str) {
        println!("{} {what}", self.total());
        for (number, count) in &self.numbers {
            println!("{number:>4}: {count}");
        }
        for kind in self.kinds() {
            let of_kind = self.words.iter().filter(|((_, other), _)| *other == kind);
            let (indices, words) = of_kind.fold((0, 0), |(i, n), (_, count)| (i + 1, n + count));
            let name = kind.name();
            println!("      of kind {name}: {words}, at {indices} indices");
        }
    }
}

fn format(format: balise::Format) -> Format {
    match format {
        balise::Format::Long => Format::Long,
        balise::Format::Short => Format::Short,
    }
}

fn reading(reading: balise::Reading) -> Reading {
    Reading {
        format: format(reading.format),
        b: reading.b,
        turn: reading.turn,
        flipped: reading.flipped,
        esb: reading.esb,
    }
}

/// A refusal as the second program gives it.
fn refusal(refusal: balise::Refusal) -> Refusal {
    match refusal {
        balise::Refusal::NoPair { tried } => Refusal::NoPair { tried },
        balise::Refusal::NotWord { kind, index } => Refusal::Word {
            kind: match kind {
                balise::Kind::Group250 => Kind::Group250,
                balise::Kind::Group20 => Kind::Group20,
                balise::Kind::Other => Kind::Other,
            },
            index,
        },
        other => Refusal::Number(other.number()),
    }
}

/// Bytes on either side of an output, which must be kept.
const GUARD: usize = 32;

/// Runs calls of ours and the second program's on outputs of this length with the
/// same random bytes, between the same guard bytes. Beyond the first `written`
/// bytes, and everywhere on a refusal, the bytes must be kept.
fn compared<T, Ours>(
    random: &mut Random,
    room: usize,
    ours: impl IntoIterator<Item = Ours>,
    second: impl FnOnce(&mut [u8]) -> Result<T, Refusal>,
    written: impl FnOnce(&T) -> usize,
) -> (Result<T, Refusal>, Vec<u8>)
where
    T: std::fmt::Debug + PartialEq,
    Ours: FnOnce(&mut [u8]) -> Result<T, balise::Refusal>,
{
    let before: Vec<u8> = (0..room + 2 * GUARD)
        .map(|_| random.number() as u8)
        .collect();
    let mut output = before.clone();
    let answer = second(&mut output[GUARD..][..room]);
    for ours in ours {
        let mut other = before.clone();
        assert_eq!(ours(&mut other[GUARD..][..room]).map_err(refusal), answer);
        assert_eq!(other, output);
    }
    let end = GUARD + answer.as_ref().map_or(0, written);
    assert_eq!(output[..GUARD], before[..GUARD]);
    assert_eq!(output[end..], before[end..]);
    output.truncate(GUARD + room);
    (answer, output.split_off(GUARD))
}

/// An engine of ours that encodes.
type Engine = fn(&[u8], &mut [u8]) -> Result<balise::Encoded, balise::Refusal>;

/// The second program's encoder, or its quicker one.
pub type Encoder = fn(&[u8], &mut [u8]) -> Result<Encoded, Refusal>;

/// What encoding a block answers, and the output.
type Encoding = (Result<Encoded, Refusal>, Vec<u8>);

fn encoded(encoded: balise::Encoded) -> Encoded {
    Encoded {
        format: format(encoded.format),
        b: encoded.b,
        esb: encoded.esb,
        count: encoded.count,
    }
}

/// Our plain engine in the place of the second program: to compare the other one
/// with it alone.
pub fn plain_engine(block: &[u8], output: &mut [u8]) -> Result<Encoded, Refusal> {
    balise::encode_plain(block, output)
        .map(encoded)
        .map_err(refusal)
}

fn encode_by(
    random: &mut Random,
    engines: &[Engine],
    second: Encoder,
    block: &[u8],
    room: usize,
) -> Encoding {
    compared(
        random,
        room,
        engines
            .iter()
            .map(|engine| |output: &mut [u8]| engine(block, output).map(encoded)),
        |output| second(block, output),
        |encoded| encoded.format.telegram_bits(),
    )
}

/// Encodes a block into an output of this length: the answer and the output.
pub fn encode(random: &mut Random, second: Encoder, block: &[u8], room: usize) -> Encoding {
    encode_by(random, &[balise::encode], second, block, room)
}

/// The same by both engines of ours, which answer and write alike.
pub fn encode_by_both(random: &mut Random, second: Encoder, block: &[u8], room: usize) -> Encoding {
    let engines = [balise::encode, balise::encode_plain];
    encode_by(random, &engines, second, block, room)
}

/// Makes the telegram of a block, B and esb in an output of this length: the
/// answer and the output.
pub fn make(
    random: &mut Random,
    block: &[u8],
    b: u64,
    esb: u64,
    room: usize,
) -> (Result<Format, Refusal>, Vec<u8>) {
    compared(
        random,
        room,
        [|output: &mut [u8]| balise::make(block, b, esb, output).map(format)],
        |output| second::make(block, b, esb, output),
        |format| format.telegram_bits(),
    )
}

/// What next answers, and the output.
pub type Listed = (Result<Option<Next>, Refusal>, Vec<u8>);

/// The second program's search for the next pair, or its quicker one.
pub type Search = fn(&[u8], u64, u64, &mut [u8]) -> Result<Option<Next>, Refusal>;

/// Gives the next pair of a block at or after one, into an output of this length:
/// ours or another in its place, and what it is compared with.
pub fn next_by(
    random: &mut Random,
    ours: impl FnOnce(&mut [u8]) -> Result<Option<balise::Pair>, balise::Refusal>,
    second: impl FnOnce(&mut [u8]) -> Result<Option<Next>, Refusal>,
    room: usize,
) -> Listed {
    let next = |pair: balise::Pair| Next {
        format: format(pair.format),
        b: pair.b,
        esb: pair.esb,
    };
    compared(
        random,
        room,
        [|output: &mut [u8]| ours(output).map(|pair| pair.map(next))],
        second,
        |next| next.map_or(0, |next| next.format.telegram_bits()),
    )
}

/// The next pair of a block at or after B and esb, into an output of this length: the
/// answer and the output.
pub fn next(
    random: &mut Random,
    second: Search,
    block: &[u8],
    (b, esb): (u64, u64),
    room: usize,
) -> Listed {
    next_by(
        random,
        |output| balise::next(block, b, esb, output),
        |output| second(block, b, esb, output),
        room,
    )
}

/// The telegram made again from what was read (document 02, No. 11). Cut at the
/// reading's turn, upright or flipped as it says, it is the window's first n bits.
pub fn make_again(random: &mut Random, window: &[u8], reading: &Reading, user: &[u8]) -> Vec<u8> {
    let n = reading.format.telegram_bits();
    let user = &user[..reading.format.user_bits()];
    let (answer, telegram) = make(random, user, reading.b.into(), reading.esb.into(), n);
    assert_eq!(answer, Ok(reading.format));
    let turned = cut(&telegram, reading.turn, n, reading.flipped);
    assert_eq!(turned, window[..n]);
    telegram
}

/// Checks a telegram.
pub fn check(telegram: &[u8]) -> Result<Format, Refusal> {
    let answer = balise::check(telegram).map(format).map_err(refusal);
    assert_eq!(answer, second::check(telegram));
    answer
}

/// A window call of ours, and that of the second program.
type Ours = fn(&[u8], &mut [u8]) -> Result<balise::Reading, balise::Refusal>;
type Second = fn(&[u8], &mut [u8]) -> Result<Reading, Refusal>;

/// What a window call answers, and the output.
type Read = (Result<Reading, Refusal>, Vec<u8>);

fn read_by(random: &mut Random, ours: Ours, second: Second, window: &[u8], room: usize) -> Read {
    compared(
        random,
        room,
        [|output: &mut [u8]| ours(window, output).map(reading)],
        |output| second(window, output),
        |reading| reading.format.user_bits(),
    )
}

/// Reads a window into an output of this length: the answer and the output.
pub fn read(random: &mut Random, window: &[u8], room: usize) -> Read {
    read_by(random, balise::read, second::read, window, room)
}

/// The same by the call that asks for no more than a well-formed telegram.
pub fn read_well_formed(random: &mut Random, window: &[u8], room: usize) -> Read {
    let (ours, second) = (balise::read_well_formed, second::read_well_formed);
    read_by(random, ours, second, window, room)
}

/// What both window calls answer, `read` first (document 02, No. 2). They answer
/// and write the same, and `check` accepts the telegram in the window; or the
/// second accepts, and the first refuses with what `check` gives for it: 10, 11
/// or 12. The telegram that was read is made again.
pub fn read_both(random: &mut Random, window: &[u8], room: usize) -> [Result<Reading, Refusal>; 2] {
    let (proper, output) = read(random, window, room);
    let (well_formed, other) = read_well_formed(random, window, room);
    match (proper, well_formed) {
        (Err(one), Err(other)) => assert_eq!(one, other),
        (Ok(one), Ok(other_one)) => {
            let m = one.format.user_bits();
            assert_eq!(one, other_one);
            assert_eq!(output[..m], other[..m]);
        }
        (Err(Refusal::Number(10..=12)), Ok(_)) => {}
        answers => panic!("{answers:?}"),
    }
    if let Ok(reading) = well_formed {
        let telegram = telegram_in(window, &reading);
        assert_eq!(check(&telegram).err(), proper.err());
        assert_eq!(make_again(random, window, &reading, &other), telegram);
    }
    [proper, well_formed]
}

/// The telegram in a window, turned back and upright.
fn telegram_in(window: &[u8], reading: &Reading) -> Vec<u8> {
    let telegram = turn_right(&window[..reading.format.telegram_bits()], reading.turn);
    if reading.flipped {
        flip(&telegram)
    } else {
        telegram
    }
}

/// A search of ours.
type Finder = fn(&[u8]) -> Result<balise::Found, balise::Refusal>;

fn search_by(random: &mut Random, finders: &[Finder], capture: &[u8]) -> Result<Found, Refusal> {
    let second = second::search(capture);
    let expected = match &second {
        Ok(found) => Ok((found.place, found.reading)),
        Err(refusal) => Err(*refusal),
    };
    for finder in finders {
        let ours = finder(capture).map(|found| (found.place, reading(found.reading)));
        assert_eq!(ours.map_err(refusal), expected);
    }
    let stretch = balise::stretch(capture);
    match &second {
        Ok(found) => {
            let window = &capture[found.place..][..found.reading.format.window_bits()];
            assert!(std::ptr::eq(stretch, window));
            for read in [read, read_well_formed] {
                let (answer, user) = read(random, stretch, found.reading.format.user_bits());
                assert_eq!(answer.as_ref(), Ok(&found.reading));
                assert_eq!(user, found.user);
            }
            make_again(random, stretch, &found.reading, &found.user);
        }
        Err(_) => assert!(stretch.is_empty()),
    }
    second
}

/// Searches a capture; the stretch is the window found, in the capture itself,
/// and both window calls read it as the search says. Its telegram is made again.
pub fn search(random: &mut Random, capture: &[u8]) -> Result<Found, Refusal> {
    search_by(random, &[balise::search], capture)
}

/// The same by both searches of ours, which answer alike.
pub fn search_by_both(random: &mut Random, capture: &[u8]) -> Result<Found, Refusal> {
    search_by(random, &[balise::search, balise::search_plain], capture)
}
