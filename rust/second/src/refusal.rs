//! Document 01's list, "When the bench says no", as document 02 amends it: a
//! refusal's number and what it carries.

use crate::words::Kind;
use std::fmt;

/// Why a call says no.
#[derive(Clone, Copy, Debug, PartialEq, Eq)]
pub enum Refusal {
    /// One that carries nothing but its number.
    Number(u8),
    /// Number 4: no pair gives a proper telegram. The count of pairs tried.
    NoPair { tried: u32 },
    /// Number 9: a word is not in the table. What is wrong with the first such
    /// word, and its index, counted from 0 at the left of the telegram, turned
    /// back and upright (document 02, No. 13).
    Word { kind: Kind, index: usize },
}

/// The length fits no format, or a capture is over the limit.
pub const LENGTH: Refusal = Refusal::Number(1);
/// A byte other than 0 or 1.
pub const NOT_A_BIT: Refusal = Refusal::Number(2);
/// The output is too short.
pub const OUTPUT: Refusal = Refusal::Number(3);
/// The last r bits differ from the first r.
pub const ENDS: Refusal = Refusal::Number(5);
/// Not divisible by g.
pub const PARITY: Refusal = Refusal::Number(6);
/// The remainder by f is that of no turn; in check, not that of turn 0.
pub const TURN: Refusal = Refusal::Number(7);
/// The control bits are not 0, 0, 1.
pub const CONTROL: Refusal = Refusal::Number(8);
/// Condition 2 fails.
pub const OFF_STEP: Refusal = Refusal::Number(10);
/// Condition 3 fails.
pub const PERIOD: Refusal = Refusal::Number(11);
/// Condition 4 fails.
pub const THINNED: Refusal = Refusal::Number(12);
/// No place of a capture accepts.
pub const NO_PLACE: Refusal = Refusal::Number(13);
/// B is over 4095 or esb over 1023 (document 02, No. 11).
pub const PAIR_TOO_LARGE: Refusal = Refusal::Number(27);

impl Refusal {
    /// Its number.
    pub const fn number(self) -> u8 {
        match self {
            Refusal::Number(number) => number,
            Refusal::NoPair { .. } => 4,
            Refusal::Word { .. } => 9,
        }
    }
}

/// As the programs write it.
impl fmt::Display for Refusal {
    fn fmt(&self, f: &mut fmt::Formatter) -> fmt::Result {
        write!(f, "refused {}", self.number())?;
        match self {
            Refusal::Number(_) => Ok(()),
            Refusal::NoPair { tried } => write!(f, " tried {tried}"),
            Refusal::Word { kind, index } => write!(f, " kind {} word {index}", kind.name()),
        }
    }
}
