//! The command pairs: a list that has no heading, its exit status, and that its
//! pairs go to make.

use crate::example;
use crate::scratch::{assert_answer, assert_no_answer, Scratch};
use compare::documents::{document, meanings, Meaning};
use compare::programs::{stderr, stdout};

/// A folder in which all is built, with a block that has pairs in the file
/// `block`, and one that has none in the file `without`.
fn with_blocks() -> Scratch {
    let scratch = Scratch::built();
    scratch.write("block", &example("list_pairs"));
    let without = document("data/long-block-without-a-pair.txt");
    scratch.write("without", &without);
    scratch
}

/// The answer for the block that has pairs.
fn list() -> String {
    document("crates/list_pairs/stdout")
}

/// What is wrong with a block of so many bits.
fn size_of(count: usize) -> String {
    format!("a block has 830 or 210 bits, and this has {count}\n")
}

#[test]
fn the_list() {
    let scratch = with_blocks();
    let list = list();
    assert_eq!(list.lines().count(), 101);
    assert!(list.ends_with("\nmore\n"));
    for words in [
        &["pairs", "block"][..],
        &["pairs", "--status", "block"],
        &["--status", "pairs", "--", "block"],
    ] {
        let ran = scratch.balise(words, b"x");
        assert_answer(&ran, 0, &list);
        assert_eq!(stderr(&ran), "");
    }
    for words in [&["pairs"][..], &["pairs", "-"]] {
        let ran = scratch.balise(words, example("list_pairs").as_bytes());
        assert_answer(&ran, 0, &list);
    }
}

/// There is an answer, and with --status it is told that it has no pair.
#[test]
fn a_list_without_a_pair() {
    let scratch = with_blocks();
    for (words, status) in [
        (&["pairs", "without"][..], 0),
        (&["pairs", "--status", "without"], 1),
    ] {
        let ran = scratch.balise(words, b"");
        assert_answer(&ran, status, "end\n");
        assert_eq!(stderr(&ran), "");
    }
}

#[test]
fn a_bad_block() {
    let scratch = with_blocks();
    let bits = |count: usize| "0".repeat(count);
    for (input, said) in [
        (bits(0), size_of(0)),
        (bits(209), size_of(209)),
        (bits(211), size_of(211)),
        (bits(829), size_of(829)),
        (bits(831), "more than 830 bits\n".to_string()),
        ("01x".to_string(), "character 120 at byte 3\n".to_string()),
    ] {
        for (words, status) in [(&["pairs"][..], 0), (&["pairs", "--status"], 1)] {
            let ran = scratch.balise(words, input.as_bytes());
            assert_answer(&ran, status, "bad\n");
            assert_eq!(stderr(&ran), format!("balise: standard input: {said}"));
        }
    }
}

#[test]
fn several_files() {
    let scratch = with_blocks();
    scratch.write("b ad", "01");
    let words = ["pairs", "block", "without", "b ad", "none"];
    let ran = scratch.balise(&words, b"");
    let answer = format!(
        "==> block <==\n{}==> without <==\nend\n==> b ad <==\nbad\n",
        list()
    );
    assert_answer(&ran, 2, &answer);
    let said = format!(
        "balise: none: there is no such file\nbalise: b ad: {}",
        size_of(2)
    );
    assert_eq!(stderr(&ran), said);
    for (other, status) in [("without", 1), ("b ad", 1), ("block", 0)] {
        let ran = scratch.balise(&["pairs", "--status", "block", other], b"");
        assert_eq!(ran.status.code(), Some(status), "{other}");
    }
}

/// It is said before a file is opened, and before anything is built.
#[test]
fn no_line_four() {
    let scratch = Scratch::new();
    let words = "balise: pairs has no line four: --only goes with encode, read, \
                 read-well-formed, search and make\n";
    for names in [&["none"][..], &["one", "two"], &[]] {
        let ran = scratch.balise(&[&["pairs", "--only"][..], names].concat(), b"");
        assert_no_answer(&ran, words);
        assert_eq!(stderr(&ran), words);
    }
    assert!(scratch.proved().is_empty());
}

/// A list without a pair is refusal 4 of encode. Nothing is said of another.
#[test]
fn what_is_said_at_a_terminal() {
    let scratch = with_blocks();
    let row = meanings().into_iter().find(|row| row.number == 4);
    let Meaning { means, advice, .. } = row.expect("a row");
    for (name, words) in [
        (
            "without",
            format!("balise: without: end: {means}. What to do: {advice}\n"),
        ),
        ("block", String::new()),
    ] {
        let line = format!("./balise pairs {name} >answer");
        let Some(said) = scratch.at_a_terminal(&line, "") else {
            return;
        };
        assert_eq!(said, words);
    }
}

/// So many lines with a pair, then this.
fn lines(count: usize, last: &str) -> String {
    (0..count)
        .map(|esb| format!("4095 {esb}\n"))
        .collect::<String>()
        + last
}

/// What is no list is not passed on: `more` comes after a hundred pairs only.
#[test]
fn no_whole_answer() {
    for text in [
        String::new(),
        "\n".to_string(),
        "bad".to_string(),
        "end".to_string(),
        "more\n".to_string(),
        "balise pairs 1\nend\n".to_string(),
        lines(1, ""),
        lines(1, "bad\n"),
        lines(1, "end"),
        lines(1, "end\n\n"),
        lines(1, "\nend\n"),
        lines(1, "7\nend\n"),
        lines(1, "7 -1\nend\n"),
        lines(1, "7  1\nend\n"),
        lines(1, "end\nend\n"),
        lines(99, "more\n"),
        lines(100, ""),
        lines(101, "more\n"),
        lines(101, "end\n"),
    ] {
        let scratch = Scratch::new();
        scratch.program("list_pairs", &format!("printf '{text}'"));
        let ran = scratch.balise(&["pairs"], b"");
        assert_no_answer(&ran, "list_pairs gave no answer: it ended with status 0");
    }
}

#[test]
fn lists_of_all_lengths() {
    for text in [
        lines(1, "end\n"),
        lines(99, "end\n"),
        lines(100, "end\n"),
        lines(100, "more\n"),
    ] {
        let scratch = Scratch::new();
        scratch.program("list_pairs", &format!("printf '{text}'"));
        let ran = scratch.balise(&["pairs", "--status"], b"");
        assert_answer(&ran, 0, &text);
    }
}

/// The first pair is encode's, and with each the telegram is fit to burn.
#[test]
fn made_from_the_list() {
    let scratch = with_blocks();
    let made = |pair: &str| {
        let (b, esb) = pair.split_once(' ').expect("B and esb");
        stdout(&scratch.balise(&["make", "--only", b, esb, "block"], b""))
    };
    let list = list();
    let pairs: Vec<&str> = list.lines().take(100).collect();
    let encoded = scratch.balise(&["encode", "--only", "block"], b"");
    assert_answer(&encoded, 0, &made(pairs[0]));
    for pair in [pairs[0], pairs[1], pairs[50], pairs[99]] {
        let telegram = made(pair);
        let ran = scratch.balise(&["check", "--status"], telegram.as_bytes());
        assert_eq!(ran.status.code(), Some(0), "{pair}");
    }
}
