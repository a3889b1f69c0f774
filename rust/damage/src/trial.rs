//! A trial: damaged windows given to window calls, and what they answer.

use crate::telegrams::{Kind, Set, Window};
use second::format::Format;
use second::random::Random;
use std::collections::BTreeMap;
use std::fmt;

/// How many findings a trial keeps.
pub const KEPT: usize = 5;

/// The refusal of an output that is too short (document 01).
pub const OUTPUT_SHORT: u8 = 3;

/// A kind of damage. Its text says enough to do it again.
pub trait Damage: fmt::Display {
    /// The window with the damage done.
    fn damaged(&self, window: &Window) -> Vec<u8>;

    /// The refusal that is proved where the output has room; none where the damage
    /// is beyond what is proved.
    fn refusal(&self, window: &Window) -> Option<u8>;
}

/// A window with the bits at these places changed.
pub fn changed(window: &Window, places: impl IntoIterator<Item = usize>) -> Vec<u8> {
    let mut bits = window.bits.clone();
    for place in places {
        bits[place] ^= 1;
    }
    bits
}

/// So many random windows of a kind, and the damage drawn for each. One seed always
/// gives the same.
pub fn random_damage<D>(
    kind: Kind,
    count: usize,
    seed: u64,
    draw: impl Fn(&mut Random, &Window) -> D,
    mut each: impl FnMut(&Window, &D),
) {
    let mut random = Random::new(seed);
    let set = Set::new(&mut random, kind);
    for _ in 0..count {
        let window = set.window(&mut random);
        let damage = draw(&mut random, &window);
        each(&window, &damage);
    }
}

/// A window call. From a window and an output it gives the number of the refusal,
/// 0 for none.
#[derive(Clone, Copy)]
pub struct Call {
    pub name: &'static str,
    pub read: fn(&[u8], &mut [u8]) -> u8,
}

/// The two calls of the library (document 02, No. 2).
pub const CALLS: [Call; 2] = [
    Call {
        name: "read",
        read: |window, output| number(balise::read(window, output)),
    },
    Call {
        name: "read-well-formed",
        read: |window, output| number(balise::read_well_formed(window, output)),
    },
];

fn number(answer: Result<balise::Reading, balise::Refusal>) -> u8 {
    answer.map_or_else(balise::Refusal::number, |_| 0)
}

/// What a call answered.
#[derive(Clone, Copy, Debug, PartialEq, Eq, PartialOrd, Ord)]
pub struct Answer {
    /// The number of the refusal, 0 for none.
    pub number: u8,
    /// Whether every byte of the output was kept.
    pub kept: bool,
    /// Whether the output had room for the user bits.
    pub room: bool,
}

impl Answer {
    /// Whether it is one of these refusals, or 3 where the output had no room, and
    /// every byte of the output was kept.
    pub fn is_one_of(self, refusals: &[u8]) -> bool {
        let due = match self.room {
            true => refusals,
            false => &[OUTPUT_SHORT],
        };
        self.kept && due.contains(&self.number)
    }
}

impl Call {
    /// What it answers to bits of a window's length, lent an output with these
    /// bytes.
    pub fn answer(&self, window: &[u8], bytes: &[u8]) -> Answer {
        let format = Format::of_window(window.len()).expect("the length of a window");
        let mut output = bytes.to_vec();
        let number = (self.read)(window, &mut output);
        Answer {
            number,
            kept: output == bytes,
            room: bytes.len() >= format.user_bits(),
        }
    }
}

impl fmt::Display for Answer {
    fn fmt(&self, f: &mut fmt::Formatter) -> fmt::Result {
        match self.number {
            0 => write!(f, "accepted")?,
            number => write!(f, "refused {number}")?,
        }
        if self.number != 0 && !self.kept {
            write!(f, ", the output changed")?;
        }
        if !self.room {
            write!(f, ", the output too short")?;
        }
        Ok(())
    }
}

/// What a call answered to the windows of a trial.
#[derive(Clone, Debug, Default, PartialEq, Eq)]
pub struct Tally {
    /// How often it gave each answer.
    answers: BTreeMap<Answer, usize>,
    /// How often it gave another one than is proved, where something is.
    pub other: usize,
}

impl Tally {
    /// How often it refused with this number, every byte of the output kept.
    pub fn refused(&self, number: u8) -> usize {
        self.count(|answer| answer.number == number && number != 0 && answer.kept)
    }

    /// How often it accepted.
    pub fn accepted(&self) -> usize {
        self.count(|answer| answer.number == 0)
    }

    fn count(&self, counted: impl Fn(&Answer) -> bool) -> usize {
        let answers = self.answers.iter();
        answers
            .filter(|(answer, _)| counted(answer))
            .map(|(_, count)| count)
            .sum()
    }
}

/// A damaged window that was not answered as is proved: the call, the window, the
/// damage and the answer.
#[derive(Clone, Debug)]
pub struct Finding {
    pub call: &'static str,
    pub window: String,
    pub damage: String,
    pub answer: Answer,
}

impl fmt::Display for Finding {
    fn fmt(&self, f: &mut fmt::Formatter) -> fmt::Result {
        let Finding {
            call,
            window,
            damage,
            answer,
        } = self;
        write!(f, "{call}: {answer}: {window}, {damage}")
    }
}

/// The outputs that a trial lends.
#[derive(Clone, Copy, Debug, PartialEq, Eq)]
pub enum Outputs {
    /// All of them have room for the user bits.
    Room,
    /// One in eight is too short.
    SomeShort,
}

/// Damaged windows given to some calls.
pub struct Trial<'a> {
    pub calls: &'a [Call],
    /// The refusals of which one is proved.
    pub refusals: &'static [u8],
    pub outputs: Outputs,
    /// How many windows were given.
    pub given: usize,
    /// What each call answered.
    pub tallies: Vec<Tally>,
    /// The first that were not answered as is proved.
    pub findings: Vec<Finding>,
    random: Random,
}

impl<'a> Trial<'a> {
    /// A trial of damage that is refused with one of these. The outputs hold random
    /// bytes.
    pub fn new(
        calls: &'a [Call],
        refusals: &'static [u8],
        outputs: Outputs,
        seed: u64,
    ) -> Trial<'a> {
        Trial {
            calls,
            refusals,
            outputs,
            given: 0,
            tallies: vec![Tally::default(); calls.len()],
            findings: Vec::new(),
            random: Random::new(seed),
        }
    }

    /// Gives a damaged window to each call, and what they answer back.
    pub fn give(&mut self, window: &Window, damage: &impl Damage) -> Vec<Answer> {
        let damaged = damage.damaged(window);
        let bytes = self.output(window.format().user_bits());
        let ask = |call: &Call| call.answer(&damaged, &bytes);
        let answers: Vec<Answer> = self.calls.iter().map(ask).collect();
        let proved = damage.refusal(window).is_some();
        self.given += 1;
        for (i, &answer) in answers.iter().enumerate() {
            *self.tallies[i].answers.entry(answer).or_default() += 1;
            if proved && !answer.is_one_of(self.refusals) {
                self.tallies[i].other += 1;
                self.find(self.calls[i].name, window, damage, answer);
            }
        }
        answers
    }

    /// Random bytes: with room for so many bits and often more, or too few.
    fn output(&mut self, bits: usize) -> Vec<u8> {
        let short = self.outputs == Outputs::SomeShort && self.random.below(8) == 0;
        let length = match short {
            true => self.too_short(bits),
            false => bits + self.random.below(40),
        };
        (0..length).map(|_| self.random.number() as u8).collect()
    }

    /// A length below this one: one less, 0, or any.
    fn too_short(&mut self, bits: usize) -> usize {
        match self.random.below(4) {
            0 => bits - 1,
            1 => 0,
            _ => self.random.below(bits),
        }
    }

    fn find(&mut self, call: &'static str, window: &Window, damage: &impl Damage, answer: Answer) {
        if self.findings.len() < KEPT {
            self.findings.push(Finding {
                call,
                window: window.to_string(),
                damage: damage.to_string(),
                answer,
            });
        }
    }

    /// Whether each call answered as is proved, wherever something is.
    pub fn all_refused(&self) -> bool {
        self.tallies.iter().all(|tally| tally.other == 0)
    }
}
