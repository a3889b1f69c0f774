//! The program: what it writes, and its exit status.

use damage::bursts::{random_bursts, single_changes, SPAN};
use damage::report::Options;
use damage::scattered::{self, random_scattered};
use damage::slips::{random_slips, LIMITS};
use damage::telegrams::{appendix_b, Kind, Window};
use damage::trial::{Damage, Outputs, Trial, CALLS};
use second::format::FORMATS;
use std::collections::BTreeMap;
use std::process::{Command, Output};

fn run(arguments: &[&str]) -> Output {
    Command::new(env!("CARGO_BIN_EXE_damage"))
        .args(arguments)
        .output()
        .expect("the program runs")
}

/// What the program writes, if all is refused.
fn written(arguments: &[&str]) -> String {
    let ran = run(arguments);
    assert_eq!((ran.status.code(), ran.stderr), (Some(0), vec![]));
    String::from_utf8(ran.stdout).expect("text")
}

/// How many windows are to be refused with each number.
#[derive(Default)]
struct Refused(BTreeMap<u8, usize>);

impl Refused {
    fn add(&mut self, window: &Window, damage: &impl Damage) {
        let number = damage.refusal(window).expect("within the limits");
        *self.0.entry(number).or_default() += 1;
    }

    /// The same, but 3 where the trial's output, lent to a call, has no room.
    fn add_lent(&mut self, trial: &mut Trial, window: &Window, damage: &impl Damage) {
        match trial.give(window, damage)[0].room {
            true => self.add(window, damage),
            false => *self.0.entry(3).or_default() += 1,
        }
    }

    /// How many are refused with a number.
    fn with(&self, number: u8) -> usize {
        self.0[&number]
    }

    /// The lines of a trial: what is due, and the counts in words.
    fn lines(&self, what: &str, due: &str, counts: &str) -> String {
        let mut lines = format!("{what}: {}\n", self.0.values().sum::<usize>());
        for name in CALLS.map(|call| call.name) {
            lines += &format!("  {name}: 0 not refused with {due}; {counts}\n");
        }
        lines
    }

    /// The lines of a trial of bursts.
    fn lines_of_bursts(&self, what: &str) -> String {
        let [with_5, with_6] = [5, 6].map(|number| self.with(number));
        let counts = format!("{with_5} refused with 5, {with_6} with 6");
        self.lines(what, "5 or 6", &counts)
    }
}

/// The lines of the single changes.
fn of_single_changes() -> String {
    let mut refused = Refused::default();
    single_changes(|window, burst| refused.add(window, burst));
    let telegrams = appendix_b();
    let of_each =
        |bits: fn(_) -> usize| -> usize { telegrams.iter().map(|t| 2 * bits(t.format)).sum() };
    // the first r and the last r places, and those between
    assert_eq!(refused.with(5), of_each(|format| 2 * format.extra_bits()));
    assert_eq!(
        refused.with(6),
        of_each(|format| format.telegram_bits() - format.extra_bits())
    );
    let count = telegrams.len();
    refused.lines_of_bursts(&format!(
        "every single-bit change of windows of the {count} telegrams of Appendix B, turn 0, upright and flipped"
    ))
}

/// The lines of so many random bursts of each format.
fn of_random_bursts(count: usize, seed: u64) -> String {
    let lines = FORMATS.map(|format| {
        let mut refused = Refused::default();
        random_bursts(format, count, seed, |window, burst| {
            refused.add(window, burst)
        });
        let name = format.name();
        refused.lines_of_bursts(&format!(
            "random bursts within {SPAN} neighbouring bits of {name} windows, seed {seed}"
        ))
    });
    lines.concat()
}

/// A trial that lends the outputs which the program lends.
fn lending(seed: u64) -> Trial<'static> {
    Trial::new(&CALLS[..1], &[], Outputs::SomeShort, seed)
}

/// The lines of so many random scattered changes of each kind of windows.
fn of_scattered(count: usize, seed: u64) -> String {
    let windows = [
        "1 to 14 bits of long windows",
        "1 to 16 bits of short windows",
        "0 to 14 bits of long windows cut from short telegrams",
    ];
    let mut lines = String::new();
    for (kind, windows) in scattered::KINDS.into_iter().zip(windows) {
        let (mut refused, mut trial) = (Refused::default(), lending(seed));
        random_scattered(kind, count, seed, |window, scattered| {
            refused.add_lent(&mut trial, window, scattered);
        });
        let [with_3, with_5, with_6] = [3, 5, 6].map(|number| refused.with(number));
        let (numbers, with_7) = match kind {
            Kind::Of(_) => ("5 or 6", String::new()),
            Kind::LongOfShort => ("5, 6 or 7", format!("{} with 7, ", refused.with(7))),
        };
        lines += &refused.lines(
            &format!("random changes of {windows}, seed {seed}"),
            &format!("{numbers}, or with 3 for want of room"),
            &format!("{with_5} refused with 5, {with_6} with 6, {with_7}{with_3} with 3"),
        );
    }
    lines
}

/// The lines of so many random slips of each format within each limit.
fn of_slips(count: usize, seed: u64) -> String {
    let sizes = [
        "1 to 4 bits, 21 or more from the edges",
        "5 to 10 bits, 76 or more from the edges",
    ];
    let mut lines = String::new();
    for format in FORMATS {
        for (limit, sizes) in LIMITS.into_iter().zip(sizes) {
            let (mut refused, mut trial) = (Refused::default(), lending(seed));
            random_slips(format, limit, count, seed, |window, slip| {
                refused.add_lent(&mut trial, window, slip);
            });
            let [with_3, with_5] = [3, 5].map(|number| refused.with(number));
            let name = format.name();
            lines += &refused.lines(
                &format!("random slips of {sizes} of {name} windows, seed {seed}"),
                "5, or with 3 for want of room",
                &format!("{with_5} refused with 5, {with_3} with 3"),
            );
        }
    }
    lines
}

#[test]
fn without_arguments() {
    assert_eq!(written(&[]), of_single_changes());
}

#[test]
fn with_bursts() {
    let seed = Options::default().seed;
    let text = of_single_changes() + &of_random_bursts(1_000, seed);
    for _ in 0..2 {
        assert_eq!(written(&["--bursts", "1000"]), text);
    }
    assert_eq!(written(&["--bursts", "0"]), of_single_changes());
}

#[test]
fn with_another_seed() {
    let (seed, other) = (Options::default().seed, 9);
    let text = of_single_changes() + &of_random_bursts(1_000, other);
    assert_eq!(written(&["--bursts", "1000", "--seed", "9"]), text);
    assert_eq!(written(&["--seed", "9", "--bursts", "1000"]), text);
    assert_eq!(written(&["--seed", "9"]), of_single_changes());
    // another sequence, and not only another number in the text
    let bursts = |seed| {
        let mut bursts = Vec::new();
        random_bursts(FORMATS[0], 100, seed, |_, burst| bursts.push(burst.clone()));
        bursts
    };
    assert_ne!(bursts(seed), bursts(other));
}

#[test]
fn with_scattered_changes_and_slips() {
    let seed = Options::default().seed;
    let single = of_single_changes();
    let (scattered, slips) = (of_scattered(1_000, seed), of_slips(500, seed));
    assert_eq!(
        written(&["--scattered", "1000"]),
        single.clone() + &scattered
    );
    assert_eq!(written(&["--slips", "500"]), single.clone() + &slips);
    // in the order of the text, whatever that of the arguments
    let all = ["--slips", "500", "--scattered", "1000", "--bursts", "100"];
    let bursts = of_random_bursts(100, seed);
    assert_eq!(
        written(&all),
        single.clone() + &bursts + &scattered + &slips
    );
    let other = ["--scattered", "1000", "--slips", "500", "--seed", "9"];
    let text = single + &of_scattered(1_000, 9) + &of_slips(500, 9);
    assert_eq!(written(&other), text);
    assert_ne!(
        of_scattered(1_000, 9).replace("seed 9", "seed 8"),
        scattered
    );
}

/// A row of the table: what it is, and its numbers.
fn row(line: &str) -> (&str, Vec<usize>) {
    let (what, numbers) = line.split_at(58);
    let numbers = numbers.split_whitespace();
    let numbers = numbers.map(|number| number.parse().expect("a number"));
    (what.trim_end(), numbers.collect())
}

/// The table of what is beyond the limits: each row counts every window once, and
/// nothing within the limits is answered otherwise than is proved.
#[test]
fn beyond_the_limits() {
    let text = written(&["--beyond", "40"]);
    let single = of_single_changes();
    let table = text.strip_prefix(&single).expect("the single changes");
    let (heads, rows): (Vec<&str>, Vec<&str>) =
        table.lines().skip(2).partition(|line| line.ends_with(':'));
    assert_eq!(heads, ["  long windows:", "  short windows:"]);
    // of each format changes, those that are missed, and slips
    assert_eq!(rows.len(), 2 * (6 + 1 + 2 * 14));
    let mut within = Vec::new();
    for (what, numbers) in rows.into_iter().map(row) {
        assert_eq!(numbers.len(), 9, "{what}");
        let [refused_or_accepted, rest] = [&numbers[..7], &numbers[7..]];
        assert_eq!(refused_or_accepted.iter().sum::<usize>(), 40, "{what}");
        let accepted = numbers[6];
        assert!(rest.iter().all(|&number| number <= accepted), "{what}");
        if what.contains("missed") {
            assert_eq!(numbers[0] + numbers[1], 0, "{what}");
        }
        if what.contains("within the limit") {
            assert_eq!(numbers[0] + numbers[1], 40, "{what}");
            within.push(what);
        }
    }
    let of_short = ["15", "16"].map(|many| format!("  {many} changes, within the limit"));
    assert_eq!(within, of_short);
    assert_eq!(written(&["--beyond", "0"]), single);
}

#[test]
fn wrong_arguments() {
    for arguments in [
        &["x"][..],
        &[""],
        &["1000"],
        &["--help"],
        &["--bursts"],
        &["--seed"],
        &["--bursts", "x"],
        &["--bursts", ""],
        &["--bursts", "-1"],
        &["--bursts", "1.5"],
        &["--bursts", "99999999999999999999"],
        &["--bursts=1000"],
        &["--seed", "x"],
        &["--bursts", "--seed", "9"],
        &["--scattered"],
        &["--scattered", "x"],
        &["--scattered", "-1"],
        &["--scattered=1000"],
        &["--slips"],
        &["--slips", "1.5"],
        &["--slip", "1000"],
        &["--beyond"],
        &["--beyond", ""],
        &["--beyond", "--slips"],
        &["--slips", "1000", "--beyond"],
        &["--bursts", "1000", "--seed"],
        &["--bursts", "1000", "x"],
        &["x", "--bursts", "1000"],
    ] {
        let ran = run(arguments);
        assert_eq!((ran.status.code(), ran.stdout), (Some(2), vec![]));
        let error = String::from_utf8(ran.stderr).expect("text");
        assert_eq!(
            error,
            "usage: damage [--bursts N] [--scattered N] [--slips N] [--beyond N] [--seed S]\n"
        );
    }
}
