//! What the tests of the kinds of damage share.

use damage::telegrams::{appendix_b, Window};
use damage::trial::{Call, Damage, Outputs, Tally, Trial, CALLS, OUTPUT_SHORT};
use second::format::Format;
use second::Refusal;

/// The window calls of the library, and then those of the second program.
pub const BOTH_PROGRAMS: [Call; 4] = [
    CALLS[0],
    CALLS[1],
    Call {
        name: "read of the second program",
        read: |window, output| number(second::read(window, output)),
    },
    Call {
        name: "read-well-formed of the second program",
        read: |window, output| number(second::read_well_formed(window, output)),
    },
];

fn number<T>(answer: Result<T, Refusal>) -> u8 {
    answer.map_or_else(Refusal::number, |_| 0)
}

/// Gives a damaged window to the calls, which must refuse it as is foretold.
pub fn refused_as_foretold(trial: &mut Trial, window: &Window, damage: &impl Damage) {
    let number = damage.refusal(window).expect("damage within the limits");
    let answers = trial.give(window, damage);
    let refused = answers.iter().all(|answer| answer.is_one_of(&[number]));
    assert!(refused, "{window}, {damage}: {answers:?}, not {number}");
}

/// Prints what a trial counted, in which nothing was found.
pub fn print(trial: &Trial, what: &str) {
    assert!(trial.all_refused() && trial.findings.is_empty());
    println!("{} {what}", trial.given);
    let mut numbers = trial.refusals.to_vec();
    if trial.outputs == Outputs::SomeShort {
        numbers.push(OUTPUT_SHORT);
    }
    for (call, tally) in trial.calls.iter().zip(&trial.tallies) {
        println!("    {}: {}", call.name, counts(tally, &numbers));
        let refused = numbers.iter().map(|&number| tally.refused(number));
        assert_eq!(refused.sum::<usize>(), trial.given);
        assert!(numbers.iter().all(|&number| tally.refused(number) > 0));
    }
}

/// How often a call refused with each of these, and anything else.
fn counts(tally: &Tally, numbers: &[u8]) -> String {
    let counts = numbers
        .iter()
        .map(|&number| (number, tally.refused(number)));
    let mut text = String::new();
    for (number, count) in counts {
        text += &format!("{number}: {count}, ");
    }
    text + &format!("anything else: {}", tally.other)
}

/// Windows of one telegram of a format, at two turns, upright and flipped.
pub fn windows_of_one(format: Format, each: impl FnMut(Window)) {
    let rows = appendix_b();
    let telegram = rows.iter().find(|row| row.format == format).unwrap();
    let ways = [(0, false), (0, true), (200, false), (200, true)];
    ways.map(|(turn, flipped)| Window::new(telegram, turn, flipped))
        .into_iter()
        .for_each(each);
}
