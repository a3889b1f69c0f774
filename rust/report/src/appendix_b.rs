//! Findings about the blocks and telegrams.

use crate::answer;
use second::appendices::{appendix_b, Row};
use second::bits::{bits_of, number_of, pack};
use second::check;
use second::conditions::{off_step, Course};
use second::encode::first_pair;
use second::pairs::Pair;
use second::read::{scrambled_bits_of, user_bits_of};
use second::scrambling::{descramble, restore_first, scramble_by_top_bit};
use second::telegram::{b_of, esb_of};

/// The bits of a block that number the rows of Appendix B.
const SERIAL: std::ops::Range<usize> = 40..58;

pub fn lines() -> Vec<String> {
    let rows: Vec<Tried> = appendix_b().into_iter().map(Tried::of).collect();
    let mut lines = vec![
        format!("rows: {}", rows.len()),
        which("spare bits all 0", &rows, |t| {
            t.row.spare_bits().iter().all(|&bit| bit == 0)
        }),
        which("telegram proper as printed, so unturned", &rows, |t| {
            check(&t.row.telegram_bits()) == Ok(t.row.format())
        }),
        which(
            "condition 2 also on the strip, as document 01 had it",
            &rows,
            |t| off_step(&t.row.telegram_bits(), t.row.format(), Course::Strip),
        ),
        which("printed block too short by some bytes", &rows, |t| {
            t.row.missing_bytes() > 0
        }),
        which(
            "feedback by the scrambled bit gives the block",
            &rows,
            |t| t.user == t.row.filled_user_bits(),
        ),
        which("feedback by the top bit gives the block", &rows, |t| {
            t.user_by_top_bit() == t.row.filled_user_bits()
        }),
        which("undoing the sum by adding gives the block", &rows, |t| {
            t.user_by_adding() == t.row.filled_user_bits()
        }),
        which(
            "first pair round the ring, the encoder's, is the printed one",
            &rows,
            |t| t.ring.telegram == t.row.telegram_bits(),
        ),
        which(
            "first pair on the strip, as document 01 had it, is the printed one",
            &rows,
            |t| t.strip.telegram == t.row.telegram_bits(),
        ),
    ];
    lines.extend(rows.iter().map(Tried::line));
    for tried in &rows {
        lines.extend(tried.differing_lines());
    }
    lines
}

/// A line that lists the rows that pass a test. A block is the printed one
/// with bytes FF filled in before its last byte.
fn which(what: &str, rows: &[Tried], test: impl Fn(&Tried) -> bool) -> String {
    let numbers: Vec<String> = rows
        .iter()
        .filter(|tried| test(tried))
        .map(|tried| tried.row.number.to_string())
        .collect();
    match numbers.len() {
        0 => format!("{what}: no row"),
        len if len == rows.len() => format!("{what}: all rows"),
        _ => format!("{what}: rows {}", numbers.join(" ")),
    }
}

/// A row, the user bits its telegram carries, and their first pairs.
struct Tried {
    row: Row,
    user: Vec<u8>,
    strip: Pair,
    ring: Pair,
}

impl Tried {
    fn of(row: Row) -> Tried {
        let format = row.format();
        let user = user_bits_of(&row.telegram_bits(), format).expect("words of the table");
        let strip = first_pair(&user, format, Course::Strip).expect("a pair");
        let ring = first_pair(&user, format, Course::Ring).expect("a pair");
        Tried {
            row,
            user,
            strip,
            ring,
        }
    }

    fn scrambled(&self) -> Vec<u8> {
        scrambled_bits_of(&self.row.telegram_bits(), self.row.format()).expect("words of the table")
    }

    fn b(&self) -> u16 {
        b_of(&self.row.telegram_bits(), self.row.format())
    }

    fn user_by_top_bit(&self) -> Vec<u8> {
        restore_first(&scramble_by_top_bit(&self.scrambled(), self.b()))
    }

    /// The first block undone as formula 3.3 of 000 prints it.
    fn user_by_adding(&self) -> Vec<u8> {
        let replaced = descramble(&self.scrambled(), self.b());
        let sum: u64 = replaced.chunks(10).map(number_of).sum();
        [&bits_of((sum % 1024).into(), 10), &replaced[10..]].concat()
    }

    fn line(&self) -> String {
        let (format, telegram) = (self.row.format(), self.row.telegram_bits());
        format!(
            "row {}: {}, printed sb {} esb {}; first pair round the ring {} {}, on the strip {} {}; bytes FF missing {}; serial printed {}, carried {}",
            self.row.number,
            format.name(),
            self.b(),
            esb_of(&telegram, format),
            self.ring.b,
            self.ring.esb,
            self.strip.b,
            self.strip.esb,
            self.row.missing_bytes(),
            number_of(&self.row.filled_user_bits()[SERIAL]),
            number_of(&self.user[SERIAL]),
        )
    }

    /// For a row whose block and telegram do not belong together: where.
    fn differing_lines(&self) -> Vec<String> {
        let printed = self.row.filled_block();
        let carried = pack(&self.user);
        if printed == carried {
            return Vec::new();
        }
        let places: Vec<String> = (0..carried.len())
            .filter(|&i| printed[i] != carried[i])
            .map(|i| i.to_string())
            .collect();
        vec![
            format!(
                "row {} belongs together: {}; the block and what the telegram carries differ in bytes {}",
                self.row.number,
                answer(places.is_empty()),
                places.join(" ")
            ),
            format!("row {} printed: {}", self.row.number, hex(&printed)),
            format!("row {} carried: {}", self.row.number, hex(&carried)),
        ]
    }
}

fn hex(bytes: &[u8]) -> String {
    let bytes: Vec<String> = bytes.iter().map(|byte| format!("{byte:02X}")).collect();
    bytes.join(" ")
}
