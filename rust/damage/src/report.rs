//! What the program writes.

use crate::beyond::beyond;
use crate::bursts::{self, random_bursts, single_changes, SPAN};
use crate::scattered::{self, random_scattered};
use crate::slips::{self, random_slips, Limit, LIMITS};
use crate::telegrams::{appendix_b, Window};
use crate::trial::{Call, Damage, Outputs, Trial, OUTPUT_SHORT};
use second::format::FORMATS;
use std::io::{self, Write};

/// What is tried besides every single change.
#[derive(Clone, Copy, Debug, PartialEq, Eq)]
pub struct Options {
    /// Random bursts of each format.
    pub bursts: usize,
    /// Random scattered changes of each kind of windows.
    pub scattered: usize,
    /// Random slips of each format within each limit.
    pub slips: usize,
    /// Windows of each row of the table of what is beyond the limits.
    pub beyond: usize,
    /// The seed of whatever is random.
    pub seed: u64,
}

impl Default for Options {
    fn default() -> Options {
        Options {
            bursts: 0,
            scattered: 0,
            slips: 0,
            beyond: 0,
            seed: 8,
        }
    }
}

/// Tries every single change on Appendix B, and what is asked for besides. Gives
/// whether all that is proved to be refused was refused so, every byte of the output
/// kept.
pub fn report(calls: &[Call], options: Options, out: &mut impl Write) -> io::Result<bool> {
    let mut all_refused = try_single_changes(calls, options, out)?;
    if options.bursts > 0 {
        all_refused &= try_bursts(calls, options, out)?;
    }
    if options.scattered > 0 {
        all_refused &= try_scattered(calls, options, out)?;
    }
    if options.slips > 0 {
        all_refused &= try_slips(calls, options, out)?;
    }
    if options.beyond > 0 {
        all_refused &= beyond(calls, options.beyond, options.seed, out)?;
    }
    Ok(all_refused)
}

fn try_single_changes(calls: &[Call], options: Options, out: &mut impl Write) -> io::Result<bool> {
    let telegrams = appendix_b().len();
    let what = format!("every single-bit change of windows of the {telegrams} telegrams of Appendix B, turn 0, upright and flipped");
    let trial = Trial::new(calls, &bursts::REFUSALS, Outputs::Room, options.seed);
    tried(trial, &what, out, |each| single_changes(each))
}

fn try_bursts(calls: &[Call], options: Options, out: &mut impl Write) -> io::Result<bool> {
    let Options { bursts, seed, .. } = options;
    let mut all_refused = true;
    for format in FORMATS {
        let name = format.name();
        let what =
            format!("random bursts within {SPAN} neighbouring bits of {name} windows, seed {seed}");
        let trial = Trial::new(calls, &bursts::REFUSALS, Outputs::Room, seed);
        all_refused &= tried(trial, &what, out, |each| {
            random_bursts(format, bursts, seed, each);
        })?;
    }
    Ok(all_refused)
}

fn try_scattered(calls: &[Call], options: Options, out: &mut impl Write) -> io::Result<bool> {
    let Options {
        scattered, seed, ..
    } = options;
    let mut all_refused = true;
    for kind in scattered::KINDS {
        let (least, most) = (scattered::least(kind), scattered::limit(kind.window()));
        let what = format!("random changes of {least} to {most} bits of {kind}, seed {seed}");
        let trial = Trial::new(calls, scattered::refusals(kind), Outputs::SomeShort, seed);
        all_refused &= tried(trial, &what, out, |each| {
            random_scattered(kind, scattered, seed, each);
        })?;
    }
    Ok(all_refused)
}

fn try_slips(calls: &[Call], options: Options, out: &mut impl Write) -> io::Result<bool> {
    let Options { slips, seed, .. } = options;
    let mut all_refused = true;
    for format in FORMATS {
        for limit in LIMITS {
            let name = format.name();
            let Limit { least, most, reach } = limit;
            let what = format!(
                "random slips of {least} to {most} bits, {reach} or more from the edges of {name} windows, seed {seed}"
            );
            let trial = Trial::new(calls, &slips::REFUSALS, Outputs::SomeShort, seed);
            all_refused &= tried(trial, &what, out, |each| {
                random_slips(format, limit, slips, seed, each);
            })?;
        }
    }
    Ok(all_refused)
}

/// Gives damaged windows to a trial, and writes what it found. Gives whether all were
/// refused so.
fn tried<D: Damage>(
    mut trial: Trial,
    what: &str,
    out: &mut impl Write,
    give_each: impl FnOnce(&mut dyn FnMut(&Window, &D)),
) -> io::Result<bool> {
    give_each(&mut |window, damage| {
        trial.give(window, damage);
    });
    write(&trial, what, out)?;
    Ok(trial.all_refused())
}

/// Writes what a trial found: a line, one for each call, and the first findings.
fn write(trial: &Trial, what: &str, out: &mut impl Write) -> io::Result<()> {
    writeln!(out, "{what}: {}", trial.given)?;
    let (due, numbers) = due(trial);
    for (call, tally) in trial.calls.iter().zip(&trial.tallies) {
        let refused = numbers
            .iter()
            .map(|&number| (number, tally.refused(number)));
        let refused: Vec<String> = refused
            .map(|(number, count)| format!("{count} with {number}"))
            .collect();
        let refused = refused.join(", ").replacen(" with", " refused with", 1);
        writeln!(
            out,
            "  {}: {} not refused with {due}; {refused}",
            call.name, tally.other
        )?;
    }
    for finding in &trial.findings {
        writeln!(out, "  found: {finding}")?;
    }
    Ok(())
}

/// The refusals that are due in a trial, in words, and their numbers.
fn due(trial: &Trial) -> (String, Vec<u8>) {
    let (last, others) = trial.refusals.split_last().expect("a refusal");
    let others: Vec<String> = others.iter().map(u8::to_string).collect();
    let due = match others.len() {
        0 => last.to_string(),
        _ => format!("{} or {last}", others.join(", ")),
    };
    let numbers = trial.refusals.to_vec();
    match trial.outputs {
        Outputs::Room => (due, numbers),
        Outputs::SomeShort => (
            format!("{due}, or with {OUTPUT_SHORT} for want of room"),
            [numbers, vec![OUTPUT_SHORT]].concat(),
        ),
    }
}
