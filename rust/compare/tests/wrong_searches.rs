//! Searches that are wrong: the quick search written in plain Rust, each with one fault.
//! Some captures of the kinds that tests/searches.rs compares tell each from the second
//! program's search, and none tells the one without a fault.
//!
//! A walk goes through the places of a format. At a place whose window fits it tries the
//! r pairs of the ends, the last first; where one differs, it goes on just past it. Where
//! all agree the window is read, but not where it goes on a run of pairs that agree in
//! which one was refused: all windows of a run are refused where one is, and a flag tells
//! that such a run goes on up to the place. Refused either way, the walk goes on just
//! past the r pairs with the flag set; a pair that differs clears it. Of the two walks
//! the one at the lower place takes the next step, the long one where both are at one
//! place.

use compare::captures::{by_kind, of_every_kind, Case};
use compare::on_all_processors;
use second::capture_kinds::{Cost, Stock};
use second::first_found;
use second::format::{Format, FORMATS};
use second::random::Random;
use second::read::{read_bits, Asked};
use second::telegram::cut;

/// Captures of each kind and format, damaged and as many not.
fn count(cost: Cost) -> usize {
    match cost {
        Cost::Little => 40,
        Cost::Divisions => 15,
        Cost::AllTests => 8,
    }
}

/// Which of the two walks takes the next step.
#[derive(Clone, Copy, PartialEq, Eq)]
enum Turn {
    /// The one at the lower place; at one place this one.
    Lower(Format),
    /// The one at the higher place, as long as its windows fit.
    Higher,
    /// This one, as long as its windows fit.
    First(Format),
    /// One after the other.
    Alternate,
}

/// Where a walk goes on from a window whose ends agree and which is refused.
#[derive(Clone, Copy, PartialEq, Eq)]
enum Onward {
    /// So many places after its pairs.
    Pairs(usize),
    /// After as many pairs again.
    Twice,
    /// At the next place.
    Next,
    /// After the window.
    Window,
    /// Nowhere.
    Nowhere,
}

/// Which flag a walk goes by.
#[derive(Clone, Copy, PartialEq, Eq)]
enum Flag {
    Own,
    /// That of this walk.
    Of(Format),
}

/// How a search goes.
#[derive(Clone, Copy)]
struct Rules {
    /// How many pairs a window is taken to have fewer than r.
    fewer: usize,
    /// How many of its first pairs, and of its last, are not tried.
    not_tried: [usize; 2],
    /// How many bits are left after the last window that fits.
    left: usize,
    /// How many places after a pair that differs the walk goes on.
    past_pair: usize,
    /// How it goes on from a window that was read, and from one of a refused run.
    onward: [Onward; 2],
    /// The flag at place 0, after a refused window, and whether a pair that differs
    /// clears it.
    at_start: bool,
    sets: bool,
    clears: bool,
    flag: Flag,
    /// Whether a refused run moves both walks, and a pair that differs.
    moves_both: [bool; 2],
    turn: Turn,
}

const RIGHT: Rules = Rules {
    fewer: 0,
    not_tried: [0, 0],
    left: 0,
    past_pair: 1,
    onward: [Onward::Pairs(0); 2],
    at_start: false,
    sets: true,
    clears: true,
    flag: Flag::Own,
    moves_both: [false, false],
    turn: Turn::Lower(Format::Long),
};

/// Other rules that find the same.
const AS_GOOD: [(&str, Rules); 4] = [
    // these three read more windows
    (
        "the flag never set, and one place after the pairs",
        Rules {
            onward: [Onward::Pairs(1); 2],
            sets: false,
            ..RIGHT
        },
    ),
    (
        "the flag never set, and the next place",
        Rules {
            onward: [Onward::Next; 2],
            sets: false,
            ..RIGHT
        },
    ),
    (
        "the flag never set",
        Rules {
            sets: false,
            ..RIGHT
        },
    ),
    // a long window and a short one at one place are never both read: condition 3 bars
    // a long telegram of which 121 bits stand again 341 bits later
    (
        "short before long at one place",
        Rules {
            turn: Turn::Lower(Format::Short),
            ..RIGHT
        },
    ),
];

const WRONG: [(&str, Rules); 22] = [
    (
        "a run left one place too late",
        Rules {
            onward: [Onward::Pairs(1); 2],
            ..RIGHT
        },
    ),
    (
        "a run left one place too late after the window that was read",
        Rules {
            onward: [Onward::Pairs(1), Onward::Pairs(0)],
            ..RIGHT
        },
    ),
    (
        "a run left one place too late after a window that was not read",
        Rules {
            onward: [Onward::Pairs(0), Onward::Pairs(1)],
            ..RIGHT
        },
    ),
    (
        "a run left by as many pairs too late",
        Rules {
            onward: [Onward::Twice; 2],
            ..RIGHT
        },
    ),
    (
        "the flag not cleared at a pair that differs",
        Rules {
            clears: false,
            ..RIGHT
        },
    ),
    (
        "the flag set from the start",
        Rules {
            at_start: true,
            ..RIGHT
        },
    ),
    (
        "the long walk's flag used for the short one",
        Rules {
            flag: Flag::Of(Format::Long),
            ..RIGHT
        },
    ),
    (
        "the short walk's flag used for the long one",
        Rules {
            flag: Flag::Of(Format::Short),
            ..RIGHT
        },
    ),
    (
        "no more windows after a refused one",
        Rules {
            onward: [Onward::Nowhere; 2],
            ..RIGHT
        },
    ),
    (
        "after the window where it is refused",
        Rules {
            onward: [Onward::Window; 2],
            sets: false,
            ..RIGHT
        },
    ),
    (
        "a pair that differs left one place too late",
        Rules {
            past_pair: 2,
            ..RIGHT
        },
    ),
    (
        "the last pair not tried",
        Rules {
            not_tried: [0, 1],
            ..RIGHT
        },
    ),
    (
        "the first pair not tried",
        Rules {
            not_tried: [1, 0],
            ..RIGHT
        },
    ),
    ("one pair less than r", Rules { fewer: 1, ..RIGHT }),
    (
        "one pair less than r, and a run left one place too late",
        Rules {
            fewer: 1,
            onward: [Onward::Pairs(1); 2],
            ..RIGHT
        },
    ),
    ("the last place left out", Rules { left: 1, ..RIGHT }),
    (
        "a refused run moves both walks",
        Rules {
            moves_both: [true, false],
            ..RIGHT
        },
    ),
    (
        "a pair that differs moves both walks",
        Rules {
            moves_both: [false, true],
            ..RIGHT
        },
    ),
    (
        "the walk at the higher place steps",
        Rules {
            turn: Turn::Higher,
            ..RIGHT
        },
    ),
    (
        "the long walk to its end, then the short one",
        Rules {
            turn: Turn::First(Format::Long),
            ..RIGHT
        },
    ),
    (
        "the short walk to its end, then the long one",
        Rules {
            turn: Turn::First(Format::Short),
            ..RIGHT
        },
    ),
    (
        "one step of each, the first that finds",
        Rules {
            turn: Turn::Alternate,
            ..RIGHT
        },
    ),
];

/// The walk of a format through a capture.
struct Walk<'a> {
    capture: &'a [u8],
    format: Format,
    rules: &'a Rules,
    place: usize,
    /// The flag: a refused run goes on up to the place.
    refused: bool,
    /// Windows that were read.
    reads: usize,
}

/// What a step came to.
#[derive(PartialEq, Eq)]
enum Step {
    Found,
    /// The window is refused, or of a refused run.
    Run,
    /// A pair differs.
    Pair,
    /// No window fits.
    End,
}

/// Is the ring of a window whose ends agree read?
fn accepted(ring: &[u8], format: Format) -> bool {
    let window = cut(ring, 0, format.window_bits(), false);
    read_bits(&window, format, Asked::Proper).is_ok()
}

impl Walk<'_> {
    /// Does the pair at j differ?
    fn differs(&self, j: usize) -> bool {
        self.capture[j] != self.capture[j + self.format.telegram_bits()]
    }

    fn at_its_end(&self) -> bool {
        self.place >= self.capture.len()
    }

    /// A step by this flag.
    fn step(&mut self, refused: bool) -> Step {
        let Rules {
            fewer,
            not_tried,
            left,
            ..
        } = *self.rules;
        let (n, r) = (
            self.format.telegram_bits(),
            self.format.extra_bits() - fewer,
        );
        let (place, length) = (self.place, self.capture.len());
        if length < place + n + r + left {
            self.place = length;
            return Step::End;
        }
        let mut tried = place + not_tried[0]..place + r - not_tried[1];
        if let Some(j) = tried.rfind(|&j| self.differs(j)) {
            self.place = j + self.rules.past_pair;
            self.refused = refused && !self.rules.clears;
            return Step::Pair;
        }
        if !refused {
            self.reads += 1;
            if accepted(&self.capture[place..place + n], self.format) {
                return Step::Found;
            }
        }
        self.place = match self.rules.onward[usize::from(refused)] {
            Onward::Pairs(places) => place + r + places,
            Onward::Twice => place + 2 * r,
            Onward::Next => place + 1,
            Onward::Window => place + n + r,
            Onward::Nowhere => length,
        };
        self.refused = self.rules.sets;
        Step::Run
    }
}

/// The index of a format's walk.
fn index(format: Format) -> usize {
    usize::from(format == Format::Short)
}

/// Which of the walks, long and short, takes the next step; the last one that did is
/// given. Not both are at their ends.
fn next_walk(turn: Turn, walks: &[Walk; 2], last: usize) -> usize {
    let (long, short) = (walks[0].place, walks[1].place);
    let wanted = match turn {
        Turn::Lower(format) if long == short => index(format),
        Turn::Lower(_) => usize::from(short < long),
        Turn::Higher => usize::from(short > long),
        Turn::First(format) => index(format),
        Turn::Alternate => 1 - last,
    };
    if walks[wanted].at_its_end() {
        1 - wanted
    } else {
        wanted
    }
}

/// What a search found, and how many windows of each format it read.
struct Searched {
    found: Option<(usize, Format)>,
    reads: [usize; 2],
}

fn search(capture: &[u8], rules: &Rules) -> Searched {
    let mut walks = FORMATS.map(|format| Walk {
        capture,
        format,
        rules,
        place: 0,
        refused: rules.at_start,
        reads: 0,
    });
    let mut last = 1;
    let mut found = None;
    while found.is_none() && !walks.iter().all(Walk::at_its_end) {
        last = next_walk(rules.turn, &walks, last);
        let refused = match rules.flag {
            Flag::Own => walks[last].refused,
            Flag::Of(format) => walks[index(format)].refused,
        };
        let step = walks[last].step(refused);
        let (place, format) = (walks[last].place, walks[last].format);
        if step == Step::Found {
            found = Some((place, format));
        }
        let [by_run, by_pair] = rules.moves_both;
        if by_run && step == Step::Run || by_pair && step == Step::Pair {
            let other = &mut walks[1 - last];
            if other.place < place {
                (other.place, other.refused) = (place, false);
            }
        }
    }
    let reads = walks.map(|walk| walk.reads);
    Searched { found, reads }
}

/// The most windows of a format that the search without a fault reads in so many bits:
/// one for every r+1 places.
fn most_reads(length: usize, format: Format) -> usize {
    let places = (length + 1).saturating_sub(format.window_bits());
    places.div_ceil(format.extra_bits() + 1)
}

/// A capture, and what the second program finds in it.
struct Compared {
    capture: Vec<u8>,
    found: Option<(usize, Format)>,
}

#[test]
fn wrong_searches_are_found() {
    let seed = 220;
    let cases: Vec<Case> = of_every_kind(&mut Random::new(seed), count);
    let stock = Stock::new(&mut Random::new(seed));
    let captures = on_all_processors(&cases, |i, case| {
        let capture = case.capture(&stock, seed << 32 | i as u64);
        let found = first_found(&capture).map(|found| (found.place, found.reading.format));
        Compared { capture, found }
    });
    for Compared { capture, found } in &captures {
        let right = search(capture, &RIGHT);
        assert_eq!(right.found, *found);
        for (format, reads) in FORMATS.into_iter().zip(right.reads) {
            assert!(reads <= most_reads(capture.len(), format));
        }
        for (name, rules) in &AS_GOOD {
            assert_eq!(search(capture, rules).found, *found, "{name}");
        }
    }
    println!("told from the right search, of {} captures:", cases.len());
    for (name, rules) in &WRONG {
        let told = on_all_processors(&captures, |_, Compared { capture, found }| {
            search(capture, rules).found != *found
        });
        let told = cases.iter().zip(told).filter(|(_, told)| *told);
        let kinds = by_kind(told.map(|(case, _)| case));
        let total: usize = kinds.iter().map(|(_, count)| count).sum();
        println!("{total:>6} of {} kinds: {name}", kinds.len());
        assert!(total > 0, "{name}");
    }
}
