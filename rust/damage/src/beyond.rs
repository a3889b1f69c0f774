//! Damage beyond what is proved: how often it is refused, and with what.

use crate::scattered::{self, limit, Scattered};
use crate::slips::{self, reach, Slip, LIMITS};
use crate::stretches::Stretched;
use crate::telegrams::{Kind, Window};
use crate::trial::{random_damage, Call, Damage, Outputs, Trial};
use second::format::{Format, FORMATS};
use second::random::Random;
use std::io::{self, Write};
use std::ops::RangeInclusive;

/// How many changes are tried; of short windows the first of them are within the
/// limit.
const CHANGES: RangeInclusive<usize> = 15..=20;

/// How many bits slip: of 1 to 10 too near an edge, of more at any distance.
const SLIPS: [usize; 14] = [1, 2, 3, 4, 5, 6, 7, 8, 9, 10, 11, 12, 22, 33];

/// The refusals that have a column.
const COLUMNS: [u8; 5] = [5, 6, 7, 8, 9];

/// A table, a row a kind of damage. The last of the calls is the one whose answers
/// are counted; of the others those that accept are.
struct Table<'a, W> {
    calls: &'a [Call],
    /// How many windows of each row.
    count: usize,
    seed: u64,
    out: &'a mut W,
    /// Whether all that is within the limits was refused as is proved.
    all_refused: bool,
}

/// Writes the table of so many windows of each row. Gives whether all that is within
/// the limits was refused as is proved.
pub fn beyond(calls: &[Call], count: usize, seed: u64, out: &mut impl Write) -> io::Result<bool> {
    let mut table = Table {
        calls,
        count,
        seed,
        out,
        all_refused: true,
    };
    table.head()?;
    for format in FORMATS {
        writeln!(table.out, "  {} windows:", format.name())?;
        table.changes(format)?;
        table.slips(format)?;
    }
    Ok(table.all_refused)
}

impl<W: Write> Table<'_, W> {
    /// What the table is, and the names of its columns.
    fn head(&mut self) -> io::Result<()> {
        let (last, others) = self.calls.split_last().expect("a call");
        let Table { count, seed, .. } = self;
        writeln!(
            self.out,
            "beyond the limits, {count} windows of each row, seed {seed}: how often {} refused with each number, how often it accepted, and how many of those windows are cut from the telegram without damage at another turn",
            last.name
        )?;
        let refusals = COLUMNS.map(|number| number.to_string());
        let rest = ["other", "accepted", "undamaged"].map(String::from);
        let others = others.iter().map(|call| format!("by {}", call.name));
        let names: Vec<String> = refusals.into_iter().chain(rest).chain(others).collect();
        self.line("", &names)
    }

    /// A line of the table.
    fn line(&mut self, what: &str, columns: &[String]) -> io::Result<()> {
        let columns: String = columns.iter().map(|text| format!(" {text:>9}")).collect();
        writeln!(self.out, "  {what:<56}{columns}")
    }

    /// Random changes of each number, and those that are missed.
    fn changes(&mut self, format: Format) -> io::Result<()> {
        let (kind, count, seed) = (Kind::Of(format), self.count, self.seed);
        let refusals = scattered::refusals(kind);
        for many in CHANGES {
            self.row(&format!("{many} changes"), refusals, |each| {
                let draw =
                    |random: &mut Random, _: &Window| Scattered::of_count(random, format, many);
                random_damage(kind, count, seed, draw, each);
            })?;
        }
        let many = limit(format) + 1;
        let what = format!("the {many} changes that are missed");
        self.row(&what, refusals, |each| {
            let draw = |_: &mut Random, _: &Window| Scattered::missed(format);
            random_damage(kind, count, seed, draw, each);
        })
    }

    /// Slips of each size, in telegrams of the set and in those with a stretch.
    fn slips(&mut self, format: Format) -> io::Result<()> {
        for many in SLIPS {
            let bits = beyond_limit(format, many);
            let (first, last) = (bits.start(), bits.end());
            let what = format!("slips of {many}, {first} to {last} bits from an edge");
            self.random_slips(&what, format, many, &bits)?;
            self.slips_in_stretches(format, many, &bits)?;
        }
        Ok(())
    }

    /// A row of slips in windows of the set, at these distances from an edge.
    fn random_slips(
        &mut self,
        what: &str,
        format: Format,
        many: usize,
        bits: &RangeInclusive<usize>,
    ) -> io::Result<()> {
        let (count, seed) = (self.count, self.seed);
        self.row(what, &slips::REFUSALS, |each| {
            let place = |random: &mut Random, sent| {
                let place = drawn(random, bits) - many;
                [place, sent - place][random.below(2)]
            };
            let draw =
                |random: &mut Random, window: &Window| Slip::drawn(random, window, many, place);
            random_damage(Kind::Of(format), count, seed, draw, each);
        })
    }

    /// A row of slips in windows with a stretch of this period at an edge, at these
    /// distances from it, half of them within the stretch.
    fn slips_in_stretches(
        &mut self,
        format: Format,
        period: usize,
        bits: &RangeInclusive<usize>,
    ) -> io::Result<()> {
        let mut random = Random::new(self.seed);
        let telegrams = Stretched::some(&mut random, format, period);
        let (length, count) = (telegrams[0].length, self.count);
        let within = *bits.start()..=length.min(*bits.end());
        let what = format!("    beside {length} bits with the period {period}");
        self.row(&what, &slips::REFUSALS, |each| {
            for _ in 0..count {
                let stretched = &telegrams[random.below(telegrams.len())];
                let bits = [bits, &within][random.below(2)];
                let bits = drawn(&mut random, bits);
                let (window, slip) = stretched.slip(&mut random, bits);
                each(&window, &slip);
            }
        })
    }

    /// Gives damaged windows to the calls, and writes the row.
    fn row<D: Damage>(
        &mut self,
        what: &str,
        refusals: &'static [u8],
        give_each: impl FnOnce(&mut dyn FnMut(&Window, &D)),
    ) -> io::Result<()> {
        let mut trial = Trial::new(self.calls, refusals, Outputs::Room, self.seed);
        let (mut within, mut undamaged) = (0, 0);
        give_each(&mut |window, damage| {
            let answers = trial.give(window, damage);
            let accepted = answers.last().is_some_and(|answer| answer.number == 0);
            within += usize::from(damage.refusal(window).is_some());
            undamaged += usize::from(accepted && window.undamaged(&damage.damaged(window)));
        });
        let (last, others) = trial.tallies.split_last().expect("a call");
        let refused = COLUMNS.map(|number| last.refused(number));
        let accepted = last.accepted();
        let other = trial.given - accepted - refused.iter().sum::<usize>();
        let others = others.iter().map(|tally| tally.accepted());
        let columns: Vec<String> = refused
            .into_iter()
            .chain([other, accepted, undamaged])
            .chain(others)
            .map(|count| count.to_string())
            .collect();
        let what = match within {
            0 => what.to_string(),
            _ => format!("{what}, within the limit"),
        };
        self.line(&what, &columns)?;
        for finding in &trial.findings {
            writeln!(self.out, "  found: {finding}")?;
        }
        self.all_refused &= trial.all_refused();
        Ok(())
    }
}

/// How far from an edge slips of so many bits are tried, the slipped ones counted in:
/// from the nearest of which nothing is proved for fewer bits to the farthest of which
/// nothing is proved for so many. At least one bit of the window is on that side.
fn beyond_limit(format: Format, many: usize) -> RangeInclusive<usize> {
    let fewer = LIMITS.iter().filter(|limit| limit.most < many);
    let first = fewer.map(|limit| limit.reach).min().unwrap_or(0);
    let last = match reach(many) {
        Some(reach) => reach - 1,
        None => format.window_bits() - first,
    };
    first.max(many + 1)..=last
}

/// A number of a range.
fn drawn(random: &mut Random, range: &RangeInclusive<usize>) -> usize {
    range.start() + random.below(range.end() - range.start() + 1)
}
