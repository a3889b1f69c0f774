//! Slips: bits lost at one place of a window, or put in there.

use crate::telegrams::{Kind, Window};
use crate::trial::{random_damage, Damage};
use second::bits::text;
use second::format::Format;
use second::random::Random;
use std::fmt;

/// What is proved of slips of some sizes.
#[derive(Clone, Copy, Debug, PartialEq, Eq)]
pub struct Limit {
    /// The fewest bits lost or put in at once.
    pub least: usize,
    /// The most.
    pub most: usize,
    /// How many bits there must be from the slip to either edge of the window, the
    /// slipped ones counted in.
    pub reach: usize,
}

/// Few bits, and more of them farther from the edges.
pub const LIMITS: [Limit; 2] = [
    Limit {
        least: 1,
        most: 4,
        reach: 21,
    },
    Limit {
        least: 5,
        most: 10,
        reach: 76,
    },
];

/// How far from either edge so many bits must slip, where something is proved.
pub fn reach(many: usize) -> Option<usize> {
    let limit = LIMITS
        .iter()
        .find(|limit| (limit.least..=limit.most).contains(&many))?;
    Some(limit.reach)
}

/// The refusal that is proved.
pub const REFUSALS: [u8; 1] = [5];

/// What slips.
#[derive(Clone, Debug, PartialEq, Eq)]
pub enum Slipped {
    /// So many bits are lost.
    Lost(usize),
    /// These bits are put in.
    PutIn(Vec<u8>),
}

/// A slip: so many bits of the window are before it.
#[derive(Clone, Debug, PartialEq, Eq)]
pub struct Slip {
    pub place: usize,
    pub slipped: Slipped,
}

impl Slip {
    /// So many bits lost at a place.
    pub fn lost(place: usize, many: usize) -> Slip {
        let slipped = Slipped::Lost(many);
        Slip { place, slipped }
    }

    /// Bits put in at a place.
    pub fn put_in(place: usize, values: Vec<u8>) -> Slip {
        let slipped = Slipped::PutIn(values);
        Slip { place, slipped }
    }

    /// A random slip within a limit.
    pub fn random(random: &mut Random, window: &Window, limit: Limit) -> Slip {
        let many = limit.least + random.below(limit.most - limit.least + 1);
        Slip::drawn(random, window, many, |random, sent| {
            random_place(random, window.format(), limit.reach, many, sent)
        })
    }

    /// So many bits lost or put in, each as often. The place is drawn, given how many
    /// bits of the window were sent.
    pub fn drawn(
        random: &mut Random,
        window: &Window,
        many: usize,
        place: impl Fn(&mut Random, usize) -> usize,
    ) -> Slip {
        let length = window.bits.len();
        match random.below(2) {
            0 => Slip::lost(place(random, length), many),
            _ => {
                let place = place(random, length - many);
                Slip::put_in(place, random_values(random, window, many, place))
            }
        }
    }

    /// How many bits are lost or put in.
    pub fn many(&self) -> usize {
        match &self.slipped {
            Slipped::Lost(many) => *many,
            Slipped::PutIn(values) => values.len(),
        }
    }

    /// How many bits of a window of this length were sent.
    pub fn sent(&self, length: usize) -> usize {
        match &self.slipped {
            Slipped::Lost(_) => length,
            Slipped::PutIn(values) => length - values.len(),
        }
    }

    /// The bits of the window before the slip, the slipped ones counted in.
    pub fn before(&self) -> usize {
        self.place + self.many()
    }

    /// The bits of a window of this length after the slip, the slipped ones counted
    /// in.
    pub fn after(&self, length: usize) -> usize {
        self.sent(length) - self.place + self.many()
    }
}

impl Damage for Slip {
    fn damaged(&self, window: &Window) -> Vec<u8> {
        let length = window.bits.len();
        let Slip { place, slipped } = self;
        match slipped {
            Slipped::Lost(many) => {
                let sent = window.sent(0, length + many);
                [&sent[..*place], &sent[place + many..]].concat()
            }
            Slipped::PutIn(values) => {
                let sent = window.sent(0, length - values.len());
                [&sent[..*place], values, &sent[*place..]].concat()
            }
        }
    }

    /// 5 where few enough bits slip, far enough from the edges.
    fn refusal(&self, window: &Window) -> Option<u8> {
        let nearest = self.before().min(self.after(window.bits.len()));
        let of_its_format = window.telegram.format == window.format();
        let reach = reach(self.many())?;
        (of_its_format && nearest >= reach).then_some(5)
    }
}

impl fmt::Display for Slip {
    fn fmt(&self, f: &mut fmt::Formatter) -> fmt::Result {
        let place = self.place;
        match &self.slipped {
            Slipped::Lost(many) => write!(f, "{many} lost after {place} bits"),
            Slipped::PutIn(values) => write!(f, "{} put in after {place} bits", text(values)),
        }
    }
}

/// The first and the last place at which so many bits may slip so far from the edges,
/// of a window of which so many bits were sent.
pub fn limits(reach: usize, many: usize, sent: usize) -> [usize; 2] {
    let nearest = reach - many;
    [nearest, sent - nearest]
}

/// How many places on either side of a seam count as near it.
const NEAR_A_SEAM: usize = 8;

/// A place far enough from the edges: anywhere, at one of the limits, with `reach` bits
/// of the window on one side, or near a seam, each as often. The seams are before the
/// places r and n.
fn random_place(
    random: &mut Random,
    format: Format,
    reach: usize,
    many: usize,
    sent: usize,
) -> usize {
    let [first, last] = limits(reach, many, sent);
    let seams = [format.extra_bits(), format.telegram_bits()];
    let side = random.below(2);
    match random.below(4) {
        0 => first + random.below(last - first + 1),
        1 => [first, last][side],
        2 => [reach, sent - reach][side],
        _ => {
            let place = seams[side] - NEAR_A_SEAM + random.below(2 * NEAR_A_SEAM + 1);
            place.clamp(first, last)
        }
    }
}

/// So many bits to be put in at a place: random ones, all 0, all 1, those before the
/// place again or those after it, each as often.
fn random_values(random: &mut Random, window: &Window, many: usize, place: usize) -> Vec<u8> {
    match random.below(5) {
        0 => random.bits(many),
        1 => vec![0; many],
        2 => vec![1; many],
        3 => before(window, many, place),
        _ => after(window, many, place),
    }
}

/// The bits that were sent before a place of a window.
pub fn before(window: &Window, many: usize, place: usize) -> Vec<u8> {
    let round = window.telegram.bits.len();
    window.sent(round + place - many, many)
}

/// The bits that were sent from a place of a window on.
pub fn after(window: &Window, many: usize, place: usize) -> Vec<u8> {
    window.sent(place, many)
}

/// So many random windows of a format, and a random slip within a limit for each.
pub fn random_slips(
    format: Format,
    limit: Limit,
    count: usize,
    seed: u64,
    each: impl FnMut(&Window, &Slip),
) {
    let draw = |random: &mut Random, window: &Window| Slip::random(random, window, limit);
    random_damage(Kind::Of(format), count, seed, draw, each);
}
