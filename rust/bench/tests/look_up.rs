//! The lookup of a word: ours, the walks and the second program, and the
//! program that times them.

use bench::look_up::{expected, NO_NUMBER, NUMBER_ALONE, TABLE, WALKS, WORDS};
use second::words;
use std::collections::BTreeMap;
use std::process::Command;

/// Every number of 16 bits, of which 2,048 are words and 1,024 in the table.
#[test]
fn answers() {
    let mut without: BTreeMap<u16, usize> = BTreeMap::new();
    for word in 0..=u16::MAX {
        let answer = expected(word);
        assert_eq!(layers::look_up(word), answer);
        for walk in &WALKS {
            assert_eq!((walk.answer)(&TABLE, word), answer, "{}", walk.name);
            let number = answer.min(NO_NUMBER);
            assert_eq!((walk.number)(&TABLE, word), number, "{}", walk.name);
        }
        assert_eq!(words::number(word), Some(answer).filter(|&a| a < NO_NUMBER));
        if usize::from(word) >= WORDS {
            assert_eq!(answer, 1024);
        } else if answer >= NO_NUMBER {
            *without.entry(answer).or_default() += 1;
        }
    }
    // in neither group, in that of 20, and in that of 250
    assert_eq!(without, [(1024, 754), (1044, 20), (1274, 250)].into());
}

/// The program prints two rows for each walk, whatever its ratios are.
#[test]
fn program() {
    let output = Command::new(env!("CARGO_BIN_EXE_look_up"))
        .output()
        .expect("the program runs");
    assert!(output.status.success());
    let text = String::from_utf8(output.stdout).expect("text");
    for walk in &WALKS {
        assert!(text.contains(&format!("| {} |", walk.name)));
    }
    let alone = format!("| {NUMBER_ALONE} |");
    assert_eq!(text.matches(&alone).count(), WALKS.len());
}
