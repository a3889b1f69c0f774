//! The refusals (document 01, "When the bench says no"; document 02, No. 9, No. 11
//! and No. 13).

use std::fmt;

use crate::Kind;

/// Why a call refuses. Of several reasons it is the one with the lowest number;
/// but [`make`](crate::make) and [`next`](crate::next) test `PairTooLarge` before
/// `OutputShort`.
#[derive(Clone, Copy, Debug, PartialEq, Eq, Hash)]
#[non_exhaustive]
pub enum Refusal {
    /// The length fits no format; a capture is over [`CAPTURE_LIMIT`](crate::CAPTURE_LIMIT).
    Length,
    /// A byte other than 0 or 1.
    NotBit,
    /// The output is too short.
    OutputShort,
    /// No pair of scrambling and extra shaping bits gives a proper telegram.
    NoPair { tried: u32 },
    /// The last r bits of a window differ from its first r.
    EndsDiffer,
    /// The bits are not divisible by g.
    NotDivisible,
    /// The remainder by f is that of no turn; in `check`, not that of turn 0.
    NoTurn,
    /// The control bits are not 0, 0, 1.
    Control,
    /// A word is not in the table: the kind and the index of the first such word,
    /// counted from 0 at the left of the telegram turned back and upright. It is the
    /// telegram's bits from `11 * index` on.
    NotWord { kind: Kind, index: usize },
    /// Condition 2 fails.
    OffStep,
    /// Condition 3 fails.
    Repeating,
    /// Condition 4 fails.
    Thinned,
    /// No place of a capture reads.
    NoPlace,
    /// B is over 4095 or esb over 1023.
    PairTooLarge,
    /// A number of the library's that has no name here.
    Other(u8),
}

impl Refusal {
    /// Every refusal with a name, by number. What one carries is 0 here, and a
    /// kind the one whose number is 0.
    pub const ALL: [Refusal; 14] = [
        Refusal::Length,
        Refusal::NotBit,
        Refusal::OutputShort,
        Refusal::NoPair { tried: 0 },
        Refusal::EndsDiffer,
        Refusal::NotDivisible,
        Refusal::NoTurn,
        Refusal::Control,
        Refusal::NotWord {
            kind: Kind::Other,
            index: 0,
        },
        Refusal::OffStep,
        Refusal::Repeating,
        Refusal::Thinned,
        Refusal::NoPlace,
        Refusal::PairTooLarge,
    ];

    /// The number, and the words of the table in docs/BENCH.md.
    const fn row(self) -> (u8, &'static str) {
        match self {
            Refusal::Length => (1, "the number of bits fits no format"),
            Refusal::NotBit => (2, "a byte other than 0 or 1"),
            Refusal::OutputShort => (3, "the output buffer is too short"),
            Refusal::NoPair { .. } => (4, "no pair gives a proper telegram"),
            Refusal::EndsDiffer => (5, "the window's end does not repeat its beginning"),
            Refusal::NotDivisible => (6, "not divisible by g"),
            Refusal::NoTurn => (
                7,
                "the turn cannot be found; \
                 in check, the telegram is turned or is not of this format",
            ),
            Refusal::Control => (
                8,
                "the control bits are not 0, 0, 1; \
                 in check, perhaps all bits are flipped",
            ),
            Refusal::NotWord { .. } => (9, "a word is not in the table"),
            Refusal::OffStep => (10, "off-step words run too long"),
            Refusal::Repeating => (11, "the telegram repeats itself a third of the way round"),
            Refusal::Thinned => (12, "thinned words run too long"),
            Refusal::NoPlace => (13, "no place in the recording reads"),
            Refusal::PairTooLarge => (27, "B is over 4095 or esb over 1023"),
            Refusal::Other(number) => (number, "a refusal without a name"),
        }
    }

    /// The number of document 01's list, or of document 02.
    pub const fn number(self) -> u8 {
        self.row().0
    }

    /// What it means, in words, without what it carries.
    pub const fn words(self) -> &'static str {
        self.row().1
    }

    /// The refusal with this number; what it carries is as in `ALL`.
    pub(crate) fn of_number(number: u8) -> Refusal {
        Refusal::ALL
            .into_iter()
            .find(|refusal| refusal.number() == number)
            .unwrap_or(Refusal::Other(number))
    }
}

/// As the programs write it: `refused 4 tried 4194304: no pair gives a proper
/// telegram`, `refused 9 kind 250 word 83: a word is not in the table`.
impl fmt::Display for Refusal {
    fn fmt(&self, f: &mut fmt::Formatter) -> fmt::Result {
        write!(f, "refused {}", self.number())?;
        match self {
            Refusal::NoPair { tried } => write!(f, " tried {tried}")?,
            Refusal::NotWord { kind, index } => write!(f, " kind {kind} word {index}")?,
            _ => {}
        }
        write!(f, ": {}", self.words())
    }
}

impl std::error::Error for Refusal {}

#[cfg(test)]
mod tests {
    use super::Refusal;
    use crate::Kind;

    #[test]
    fn every_number_is_that_of_its_refusal() {
        for number in 1..=u8::MAX {
            let refusal = Refusal::of_number(number);
            assert_eq!(refusal.number(), number);
            assert_eq!(
                refusal == Refusal::Other(number),
                !Refusal::ALL.contains(&refusal)
            );
        }
        assert!(Refusal::ALL.is_sorted_by(|one, next| one.number() < next.number()));
    }

    #[test]
    fn what_is_displayed() {
        let refusal = Refusal::NoPair { tried: 4_194_304 };
        assert_eq!(
            refusal.to_string(),
            "refused 4 tried 4194304: no pair gives a proper telegram"
        );
        let displayed = Kind::ALL.map(|kind| Refusal::NotWord { kind, index: 83 }.to_string());
        assert_eq!(
            displayed,
            [
                "refused 9 kind 250 word 83: a word is not in the table",
                "refused 9 kind 20 word 83: a word is not in the table",
                "refused 9 kind other word 83: a word is not in the table",
            ]
        );
        assert_eq!(
            Refusal::NotBit.to_string(),
            "refused 2: a byte other than 0 or 1"
        );
        assert_eq!(
            Refusal::Other(99).to_string(),
            "refused 99: a refusal without a name"
        );
    }
}
