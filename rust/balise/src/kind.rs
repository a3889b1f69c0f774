//! The kinds of a word that is not in the table (document 02, No. 13).

use std::fmt;

/// Why a word is not in the table: the group that bars it, if one does.
#[derive(Clone, Copy, Debug, PartialEq, Eq, Hash)]
pub enum Kind {
    /// In the group of 250.
    Group250,
    /// In the group of 20.
    Group20,
    /// In neither: simply not in the table.
    Other,
}

impl Kind {
    /// The three kinds, in the order of document 02.
    pub const ALL: [Kind; 3] = [Kind::Group250, Kind::Group20, Kind::Other];

    /// The number in an answer: the group's, or 0.
    pub const fn number(self) -> u16 {
        match self {
            Kind::Group250 => 250,
            Kind::Group20 => 20,
            Kind::Other => 0,
        }
    }

    /// The kind with this number; `Other` for any number but the groups'.
    pub(crate) fn of_number(number: u16) -> Kind {
        Kind::ALL
            .into_iter()
            .find(|kind| kind.number() == number)
            .unwrap_or(Kind::Other)
    }
}

/// As the programs write it.
impl fmt::Display for Kind {
    fn fmt(&self, f: &mut fmt::Formatter) -> fmt::Result {
        f.write_str(match self {
            Kind::Group250 => "250",
            Kind::Group20 => "20",
            Kind::Other => "other",
        })
    }
}
