//! The telegrams whose windows are damaged, and the windows cut from them.

use second::appendices::{self, only_the_ring_refuses, well_formed_not_proper};
use second::bits::text;
use second::format::Format;
use second::made;
use second::random::Random;
use second::telegram::cut;
use std::fmt;

/// Random proper telegrams that are made for a set.
const MADE: usize = 20;

/// A well-formed telegram.
#[derive(Clone, Debug)]
pub struct Telegram {
    pub format: Format,
    pub bits: Vec<u8>,
    /// Where it stands, or its bits.
    pub name: String,
    /// Whether it is proper too.
    pub proper: bool,
}

impl Telegram {
    pub fn new(bits: Vec<u8>, name: String, proper: bool) -> Telegram {
        Telegram {
            format: Format::of_telegram(bits.len()).expect("the length of a telegram"),
            bits,
            name,
            proper,
        }
    }
}

/// The telegrams of Appendix B.
pub fn appendix_b() -> Vec<Telegram> {
    appendices::appendix_b()
        .iter()
        .map(|row| {
            let name = format!("row {} of Appendix B", row.number);
            Telegram::new(row.telegram_bits(), name, true)
        })
        .collect()
}

/// The kept telegrams that are well-formed and not proper.
pub fn not_proper() -> Vec<Telegram> {
    let of_file = |lines: Vec<Vec<u8>>, file: &str| -> Vec<Telegram> {
        let numbered = lines.into_iter().zip(1..);
        numbered
            .map(|(bits, line)| {
                let name = format!("line {line} of data/{file}.txt");
                Telegram::new(bits, name, false)
            })
            .collect()
    };
    [
        of_file(well_formed_not_proper(), "well-formed-not-proper"),
        of_file(only_the_ring_refuses(), "strip-passes-ring-refuses"),
    ]
    .concat()
}

/// Proper telegrams of random blocks.
pub fn random_proper(random: &mut Random, format: Format) -> Vec<Telegram> {
    made::random_telegrams(random, format, MADE)
        .into_iter()
        .map(|bits| {
            let name = format!("the telegram {}", text(&bits));
            Telegram::new(bits, name, true)
        })
        .collect()
}

/// Which windows: those of a format, or bits of a long window's length cut from a
/// short telegram.
#[derive(Clone, Copy, Debug, PartialEq, Eq)]
pub enum Kind {
    Of(Format),
    LongOfShort,
}

impl Kind {
    /// The format of the telegrams.
    pub fn telegram(self) -> Format {
        match self {
            Kind::Of(format) => format,
            Kind::LongOfShort => Format::Short,
        }
    }

    /// The format whose windows have this length.
    pub fn window(self) -> Format {
        match self {
            Kind::Of(format) => format,
            Kind::LongOfShort => Format::Long,
        }
    }
}

impl fmt::Display for Kind {
    fn fmt(&self, f: &mut fmt::Formatter) -> fmt::Result {
        match self {
            Kind::Of(format) => write!(f, "{} windows", format.name()),
            Kind::LongOfShort => write!(f, "long windows cut from short telegrams"),
        }
    }
}

/// The telegrams for a kind of windows, to draw from: each of the three origins is
/// drawn as often as the others.
pub struct Set {
    kind: Kind,
    origins: [Vec<Telegram>; 3],
}

impl Set {
    pub fn new(random: &mut Random, kind: Kind) -> Set {
        let format = kind.telegram();
        let origins = [appendix_b(), not_proper(), random_proper(random, format)];
        let origins = origins.map(|mut telegrams| {
            telegrams.retain(|telegram| telegram.format == format);
            telegrams
        });
        Set { kind, origins }
    }

    /// A window of one of them, at any turn, upright or flipped.
    pub fn window(&self, random: &mut Random) -> Window<'_> {
        let origin = &self.origins[random.below(self.origins.len())];
        let telegram = &origin[random.below(origin.len())];
        let turn = random.below(telegram.bits.len());
        Window::of_length(telegram, self.kind.window(), turn, random.below(2) == 1)
    }
}

/// A window of a set length, cut from a telegram going round (document 01,
/// "Search, reading and place").
#[derive(Clone, Debug)]
pub struct Window<'a> {
    pub telegram: &'a Telegram,
    pub turn: usize,
    pub flipped: bool,
    pub bits: Vec<u8>,
}

impl Window<'_> {
    /// A window of the telegram's own format.
    pub fn new(telegram: &Telegram, turn: usize, flipped: bool) -> Window<'_> {
        Window::of_length(telegram, telegram.format, turn, flipped)
    }

    /// As many bits as a window of a format has.
    pub fn of_length(
        telegram: &Telegram,
        format: Format,
        turn: usize,
        flipped: bool,
    ) -> Window<'_> {
        Window {
            telegram,
            turn,
            flipped,
            bits: cut(&telegram.bits, turn, format.window_bits(), flipped),
        }
    }

    /// The format whose windows have this length.
    pub fn format(&self) -> Format {
        Format::of_window(self.bits.len()).expect("the length of a window")
    }

    /// So many bits of the telegram going round, from so many after the window's
    /// beginning on.
    pub fn sent(&self, from: usize, length: usize) -> Vec<u8> {
        cut(&self.telegram.bits, self.turn + from, length, self.flipped)
    }

    /// Whether these bits are cut from the same telegram without damage, at
    /// whatever turn.
    pub fn undamaged(&self, bits: &[u8]) -> bool {
        let telegram = &self.telegram.bits;
        let round = |turn| telegram.iter().cycle().skip(turn);
        let flip = u8::from(self.flipped);
        (0..telegram.len()).any(|turn| bits.iter().zip(round(turn)).all(|(a, b)| a ^ flip == *b))
    }
}

/// Enough to cut it again.
impl fmt::Display for Window<'_> {
    fn fmt(&self, f: &mut fmt::Formatter) -> fmt::Result {
        let way = if self.flipped { "flipped" } else { "upright" };
        let (format, name) = (self.format().name(), &self.telegram.name);
        write!(f, "{format} window of {name}, turn {}, {way}", self.turn)
    }
}
