//! Bursts: changed bits within 75 neighbouring places of a window (document 02,
//! No. 8).

use crate::telegrams::{appendix_b, Kind, Window};
use crate::trial::{changed, random_damage, Damage};
use second::format::Format;
use second::random::Random;
use std::fmt;

/// The most places within which a burst is refused, whatever it changes.
pub const SPAN: usize = 75;

/// The refusals of which one is proved.
pub const REFUSALS: [u8; 2] = [5, 6];

/// Changed bits of a window, from the first changed one to the last.
#[derive(Clone, Debug, PartialEq, Eq)]
pub struct Burst {
    from: usize,
    /// 1 where a bit is changed; the first and the last are 1.
    changes: Vec<u8>,
}

impl Burst {
    /// The burst with these changes, 1 for a changed bit, from a place on.
    pub fn new(from: usize, changes: Vec<u8>) -> Burst {
        assert!(changes.first() == Some(&1) && changes.last() == Some(&1));
        Burst { from, changes }
    }

    /// One changed bit.
    pub fn single(place: usize) -> Burst {
        Burst::new(place, vec![1])
    }

    /// A random burst of at most 75 places in a window of a format.
    pub fn random(random: &mut Random, format: Format) -> Burst {
        let span = random_span(random);
        let mut changes = random.bits(span);
        changes[0] = 1;
        changes[span - 1] = 1;
        Burst::new(random_from(random, format, span), changes)
    }

    /// The first changed place.
    pub fn first(&self) -> usize {
        self.from
    }

    /// The last changed place.
    pub fn last(&self) -> usize {
        self.from + self.changes.len() - 1
    }

    /// How many places there are from the first changed one to the last.
    pub fn span(&self) -> usize {
        self.changes.len()
    }

    /// The changed places.
    pub fn places(&self) -> impl Iterator<Item = usize> + '_ {
        (self.first()..=self.last()).filter(|place| self.changes[place - self.from] == 1)
    }
}

impl Damage for Burst {
    fn damaged(&self, window: &Window) -> Vec<u8> {
        changed(window, self.places())
    }

    /// 5 where one of the first r or the last r bits of the window is changed,
    /// otherwise 6.
    fn refusal(&self, window: &Window) -> Option<u8> {
        let format = window.format();
        let (n, r) = (format.telegram_bits(), format.extra_bits());
        let at_the_ends = self.places().any(|place| place < r || place >= n);
        (self.span() <= SPAN).then_some(if at_the_ends { 5 } else { 6 })
    }
}

/// The changed places, counted from 0.
impl fmt::Display for Burst {
    fn fmt(&self, f: &mut fmt::Formatter) -> fmt::Result {
        write!(f, "changed from place {} on:", self.from)?;
        self.places().try_for_each(|place| write!(f, " {place}"))
    }
}

/// 1 to 75; 1 and 75 an eighth of the time each, and otherwise any of them.
fn random_span(random: &mut Random) -> usize {
    match random.below(8) {
        0 => 1,
        1 => SPAN,
        _ => 1 + random.below(SPAN),
    }
}

/// Where a burst begins: anywhere, across a seam or at an edge, a third of the
/// time each. The seams are before the places r and n.
fn random_from(random: &mut Random, format: Format, span: usize) -> usize {
    let (n, r) = (format.telegram_bits(), format.extra_bits());
    match random.below(3) {
        0 => random.below(n + r - span + 1),
        1 => across(random, [r, n], span),
        _ => at_an_edge(random, format, span),
    }
}

/// A beginning that leaves places on both sides of a seam; one place alone lies
/// just before it or just after it.
fn across(random: &mut Random, seams: [usize; 2], span: usize) -> usize {
    let seam = seams[random.below(seams.len())];
    match span {
        1 => seam - random.below(2),
        _ => seam - 1 - random.below(span - 1),
    }
}

/// A beginning that puts the burst at an end of the window, or one of its own ends
/// just before or just after a seam.
fn at_an_edge(random: &mut Random, format: Format, span: usize) -> usize {
    let (n, r) = (format.telegram_bits(), format.extra_bits());
    let first = [0, r - 1, r, n - 1, n];
    let last = [n + r - 1, r - 1, r, n - 1, n];
    let edge = random.below(first.len());
    match random.below(2) {
        0 => first[edge],
        _ => last[edge] + 1 - span,
    }
}

/// Every single change of a window of each telegram of Appendix B, at turn 0,
/// upright and flipped.
pub fn single_changes(mut each: impl FnMut(&Window, &Burst)) {
    for telegram in &appendix_b() {
        for flipped in [false, true] {
            let window = Window::new(telegram, 0, flipped);
            for place in 0..window.bits.len() {
                each(&window, &Burst::single(place));
            }
        }
    }
}

/// So many random windows of a format, and a random burst for each.
pub fn random_bursts(format: Format, count: usize, seed: u64, each: impl FnMut(&Window, &Burst)) {
    let draw = |random: &mut Random, _: &Window| Burst::random(random, format);
    random_damage(Kind::Of(format), count, seed, draw, each);
}
