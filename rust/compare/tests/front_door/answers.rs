//! What is written, and the exit status.

use crate::scratch::{assert_answer, assert_no_answer, Scratch};
use crate::{example, not_proper, proper, BAD, MAKE, PROPER};
use balise::Kind;
use compare::documents::{document, meanings, Meaning};
use compare::programs::{stderr, stdout, PROGRAMS};
use std::fs;

/// The seven commands, each with an input that is accepted.
fn accepted() -> [(&'static str, String); 7] {
    [
        ("encode", example("encode_block")),
        ("check", proper()),
        ("read", example("read_window")),
        ("read-well-formed", not_proper()),
        ("search", example("search_capture")),
        (MAKE, example("make_telegram")),
        ("pairs", example("list_pairs")),
    ]
}

/// The words of a command, and some more.
fn words<'a>(command: &'a str, more: &[&'a str]) -> Vec<&'a str> {
    command.split(' ').chain(more.iter().copied()).collect()
}

#[test]
fn a_write_that_fails() {
    let scratch = Scratch::built();
    for (command, input) in accepted() {
        scratch.write("input", &input);
        for line in [
            format!("./balise {command} input >/dev/full"),
            format!("./balise {command} --status input >/dev/full"),
            format!("./balise {command} input >&-"),
            format!("ulimit -f 0; ./balise {command} input >output"),
            format!("{{ sleep 0.2; ./balise {command} input; }} | true; exit ${{PIPESTATUS[0]}}"),
        ] {
            let ran = scratch.shell(&line);
            assert_no_answer(&ran, "balise: the answer could not be written");
        }
    }
    scratch.write("input", &example("search_capture"));
    let ran = scratch.shell("./balise encode --only input >/dev/full");
    assert_eq!(ran.status.code(), Some(1), "a capture is no block");
    for words in ["help", "--version"] {
        let ran = scratch.shell(&format!("./balise {words} >/dev/full"));
        assert_no_answer(&ran, "could not be written");
    }
}

#[test]
fn status() {
    let scratch = Scratch::built();
    for (command, input) in accepted() {
        let refused: &[u8] = if command == "search" { b"0" } else { b"01" };
        for (input, status) in [(input.as_bytes(), 0), (refused, 1), (b"2", 1)] {
            let plain = scratch.balise(&words(command, &[]), input);
            let asked = scratch.balise(&words(command, &["--status"]), input);
            assert_answer(&asked, status, &stdout(&plain));
            assert_eq!(plain.status.code(), Some(0));
        }
    }
    let none = scratch.balise(&["search", "--status"], b"0");
    assert_answer(&none, 1, "balise capture 1\nbits 1\nnone\n");
}

#[test]
fn only_line_four() {
    let scratch = Scratch::built();
    for (command, input) in accepted() {
        let only = words(command, &["--only"]);
        let whole = stdout(&scratch.balise(&words(command, &[]), input.as_bytes()));
        let ran = scratch.balise(&only, input.as_bytes());
        if ["check", "pairs"].contains(&command) {
            assert_no_answer(&ran, &format!("{command} has no line four"));
            continue;
        }
        let four = whole.lines().nth(3).expect("line four");
        assert_answer(&ran, 0, &format!("{four}\n"));
        for (input, words) in [("01x", "bad: character 120"), ("01", "")] {
            let ran = scratch.balise(&only, input.as_bytes());
            assert_answer(&ran, 1, "");
            assert!(stderr(&ran).contains(words), "{ran:?}");
        }
    }
    let ran = scratch.balise(&["read", "--only"], b"01");
    assert_eq!(stderr(&ran), "balise: standard input: refused 1\n");
    let ran = scratch.balise(&["read", "--only", "one", "two"], b"");
    assert_no_answer(&ran, "one file at a time");
}

/// What read refuses with 10, and read-well-formed reads.
#[test]
fn a_window_that_is_not_proper() {
    let scratch = Scratch::built();
    scratch.write("window", &not_proper());
    let ran = scratch.balise(&["read", "--status", "window"], b"");
    assert_answer(&ran, 1, "balise read 1\nbits 1100\nrefused 10\n");
    let ran = scratch.balise(&["search", "--status", "window"], b"");
    assert_answer(&ran, 1, "balise capture 1\nbits 1100\nnone\n");
    let ran = scratch.balise(&["read-well-formed", "--status", "window"], b"");
    assert_eq!(ran.status.code(), Some(0));
    let answer = stdout(&ran);
    assert!(answer.starts_with("balise read-well-formed 1\nbits 1100\nlong turn 0 sb "));
}

/// Refusal 9, with its kind and index.
#[test]
fn a_word_that_is_not_in_the_table() {
    let scratch = Scratch::built();
    let telegrams = document("examples/bad-words.txt");
    for (telegram, word) in telegrams.lines().zip([
        "kind 250 word 3",
        "kind 20 word 8",
        "kind other word 13",
        "kind other word 24",
    ]) {
        let ran = scratch.balise(&["check", "--status"], telegram.as_bytes());
        let answer = format!("balise check 1\nbits 341\nrefused 9 {word}\n");
        assert_answer(&ran, 1, &answer);
        let window = [telegram, &telegram[..121]].concat();
        for command in ["read", "read-well-formed"] {
            let ran = scratch.balise(&[command, "--only"], window.as_bytes());
            assert_answer(&ran, 1, "");
            let said = format!("balise: standard input: refused 9 {word}\n");
            assert_eq!(stderr(&ran), said);
        }
    }
}

#[test]
fn what_is_wrong_with_a_bad_input() {
    let scratch = Scratch::built();
    let more = |count: usize| "0".repeat(count + 1);
    for (command, limit) in [
        ("encode", 830),
        ("check", 1023),
        ("read", 1100),
        ("read-well-formed", 1100),
        ("search", 7500),
        (MAKE, 830),
    ] {
        let ran = scratch.balise(&words(command, &[]), more(limit).as_bytes());
        assert!(stdout(&ran).ends_with("\nbad\n"));
        let words = format!("balise: standard input: more than {limit} bits\n");
        assert_eq!(stderr(&ran), words);
    }
    scratch.write("file", "0\r\n1\n\u{e9}");
    let ran = scratch.balise(&["check", "file"], b"");
    assert_answer(&ran, 0, BAD);
    assert_eq!(stderr(&ran), "balise: file: character 195 at byte 6\n");
}

#[test]
fn what_a_refusal_means() {
    let meanings = meanings();
    let scratch = Scratch::built();
    scratch.write("file", "01");
    // not where standard error is no terminal
    assert_eq!(stderr(&scratch.balise(&["check", "file"], b"")), "");
    for (command, result, number) in [
        ("read", "refused 1", 1),
        ("search", "none", 13),
        (MAKE, "refused 1", 1),
    ] {
        let row = meanings.iter().find(|row| row.number == number);
        let Meaning { means, advice, .. } = row.expect("a row");
        let line = format!("./balise {command} file >answer");
        let Some(said) = scratch.at_a_terminal(&line, "") else {
            return;
        };
        let words = format!("balise: file: {result}: {means}. What to do: {advice}\n");
        assert_eq!(said, words);
        let answer = fs::read_to_string(scratch.path("answer")).expect("an answer");
        assert!(answer.ends_with(&format!("{result}\n")));
    }
}

/// Who sits at a terminal is told that it is read.
#[test]
fn a_terminal() {
    let scratch = Scratch::built();
    if let Some(said) = scratch.at_a_terminal("./balise check", "01\\n\\004") {
        assert!(said.contains("balise: reading bits from the terminal"));
        assert!(said.contains("refused 1\n"));
    }
}

/// What is said at a terminal where the program answers with this line.
fn said_of(scratch: &Scratch, result: &str) -> Option<String> {
    let answer = format!("printf 'balise check 1\\nbits 1\\n{result}\\n'");
    scratch.program("check_telegram", &answer);
    let built = scratch.shell("rm -f target/bin/*; ./balise build");
    assert!(built.status.success());
    scratch.at_a_terminal("./balise check docs/BENCH.md >answer", "")
}

/// Every refusal has its words, also one with further facts on its line.
#[test]
fn each_refusal_has_its_words() {
    let scratch = Scratch::new();
    for row in meanings() {
        let Meaning {
            number,
            means,
            advice,
        } = row;
        let result = format!("refused {number} tried 5");
        let Some(said) = said_of(&scratch, &result) else {
            return;
        };
        let words = format!("{result}: {means}. What to do: {advice}\n");
        assert!(said.ends_with(&words), "{said}");
    }
}

/// Refusal 9 has those of its kind as well.
#[test]
fn each_kind_has_its_words() {
    let scratch = Scratch::new();
    let page = document("docs/BENCH.md");
    let mut rows = meanings().into_iter();
    let Meaning { means, advice, .. } = rows.find(|row| row.number == 9).expect("a row");
    for kind in Kind::ALL {
        let first = format!("| kind {kind} | ");
        let mut rows = page.lines().filter_map(|line| line.strip_prefix(&first));
        let row = rows.next().and_then(|row| row.strip_suffix(" |"));
        let (looks, hint) = row.and_then(|row| row.split_once(" | ")).expect("a row");
        let result = format!("refused 9 kind {kind} word 30");
        let Some(said) = said_of(&scratch, &result) else {
            return;
        };
        let words = format!("{means}. What to do: {advice}. Kind {kind}: {looks}; {hint}\n");
        assert!(said.ends_with(&format!("{result}: {words}")), "{said}");
    }
}

/// A program that fails, or whose answer is not whole, is not passed on.
#[test]
fn no_whole_answer() {
    for (program, words) in [
        ("exit 3", "status 3"),
        (
            "printf 'balise check 1\\nbits 1023\\nlong proper\\n'; kill -9 $$",
            "status 137",
        ),
        (
            "printf 'balise check 1\\nbits 1023\\nlong proper'",
            "status 0",
        ),
        ("printf 'balise check 1\\nbits 1023\\n'", "status 0"),
        ("printf 'balise check 1\\n'", "status 0"),
        ("printf '\\n'", "status 0"),
        (
            "printf 'balise read 1\\nbits 1023\\nlong proper\\n'",
            "status 0",
        ),
        ("printf 'balise check 1\\nbits 1023\\nlong\\n'", "status 0"),
        (
            "printf 'balise check 1\\nbits 1023\\nlong proper\\n01\\n'",
            "status 0",
        ),
        ("echo words >&2; exit 1", "and said: words"),
    ] {
        let scratch = Scratch::new();
        scratch.program("check_telegram", program);
        let ran = scratch.balise(&["check"], b"");
        assert_no_answer(&ran, "check_telegram gave no answer");
        assert!(stderr(&ran).contains(words), "{ran:?}");
    }
    let scratch = Scratch::new();
    scratch.program(
        "encode_block",
        "printf 'balise encode 1\\nbits 210\\nshort sb 1 esb 2 tried 3\\n'",
    );
    let ran = scratch.balise(&["encode", "--only"], b"");
    assert_no_answer(&ran, "encode_block gave no answer");
}

#[test]
fn usage() {
    let scratch = Scratch::new();
    for words in [&["help"][..], &["--help"], &["-h"]] {
        let ran = scratch.balise(words, b"");
        assert_eq!(ran.status.code(), Some(0));
        assert!(stdout(&ran).starts_with("usage: balise COMMAND"));
        assert!(stdout(&ran).contains("\n  read-well-formed\n"));
        assert!(stdout(&ran).contains("\n  make B ESB\n"));
        assert!(stdout(&ran).contains("\n  pairs    a block"));
    }
    assert_no_answer(&scratch.balise(&[], b""), "usage: balise");
    assert_no_answer(&scratch.balise(&["burn"], b""), "no command 'burn'");
    assert_no_answer(
        &scratch.balise(&["check", "--fast"], b""),
        "no option '--fast'",
    );
    assert_no_answer(
        &scratch.balise(&["build", "file"], b""),
        "build takes no file",
    );
    // what stands for a file is never taken for a wish to read this text
    for word in ["-h", "--help", "--version"] {
        let ran = scratch.balise(&["check", "--status", word], proper().as_bytes());
        assert_no_answer(&ran, "usage: balise COMMAND");
    }
    assert!(scratch.proved().is_empty());
}

#[test]
fn version() {
    let scratch = Scratch::new();
    let before = stdout(&scratch.balise_alone(&["--version"], b""));
    assert!(before.starts_with("balise 1\nsource "));
    for program in PROGRAMS {
        assert!(before.contains(&format!("\n{}: not built\n", program.name)));
    }
    assert_answer(&scratch.balise(&["check"], proper().as_bytes()), 0, PROPER);
    let after = stdout(&scratch.balise_alone(&["--version"], b""));
    assert!(after.contains("\ncheck_telegram: kit of the tests\n"));
    assert_eq!(after.lines().nth(1), before.lines().nth(1));
    scratch.write("crates/texts/src/file.rt", "changed");
    let changed = stdout(&scratch.balise_alone(&["--version"], b""));
    assert_ne!(changed.lines().nth(1), before.lines().nth(1));
    assert!(changed.contains("\ncheck_telegram: not built\n"));
}
