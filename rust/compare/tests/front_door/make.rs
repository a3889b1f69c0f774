//! The command make: its first two operands are numbers and never files, and the
//! others are files.

use crate::scratch::{assert_answer, assert_no_answer, Scratch};
use crate::{example, proper, MAKE};
use compare::documents::document;
use compare::programs::{stderr, stdout, PROGRAMS};

const BAD: &str = "balise make 1\nbad\n";
const NO_B: &str = "balise: the first argument must be B, one to nine digits\n";
const NO_ESB: &str = "balise: the second argument must be esb, one to nine digits\n";

/// A folder in which all is built, with a block in the file `block`.
fn with_block() -> Scratch {
    let scratch = Scratch::built();
    scratch.write("block", &example("make_telegram"));
    scratch
}

/// The answer for that block.
fn made() -> String {
    document("crates/make_telegram/stdout")
}

#[test]
fn the_numbers_are_those_of_the_stored_example() {
    let program = PROGRAMS.iter().find(|program| program.word == "make");
    let numbers = program.expect("make").arguments();
    assert_eq!(MAKE, format!("make {}", numbers.join(" ")));
}

#[test]
fn numbers_and_files() {
    let scratch = with_block();
    // files whose names are the numbers are not opened
    scratch.write("18", "x");
    scratch.write("119", "x");
    for words in [
        &["make", "18", "119", "block"][..],
        &["make", "18", "119", "--", "block"],
        &["make", "18", "--", "119", "block"],
        &["make", "--", "18", "119", "block"],
        &["make", "--status", "18", "119", "block"],
        &["make", "18", "--status", "119", "block"],
        &["--status", "make", "18", "119", "block", "--status"],
    ] {
        let ran = scratch.balise(words, b"x");
        assert_answer(&ran, 0, &made());
        assert_eq!(stderr(&ran), "");
    }
    for words in [
        &["make", "18", "119"][..],
        &["make", "18", "119", "-"],
        &["make", "000000018", "0119"],
    ] {
        let ran = scratch.balise(words, example("make_telegram").as_bytes());
        assert_answer(&ran, 0, &made());
    }
    // a third number is the name of a file
    let ran = scratch.balise(&["make", "18", "119", "7"], b"");
    assert_no_answer(&ran, "balise: 7: there is no such file\n");
}

#[test]
fn several_files() {
    let scratch = with_block();
    scratch.write("other", &"0".repeat(210));
    scratch.write("b ad", "2");
    let words = ["make", "18", "119", "block", "other", "b ad", "none"];
    let ran = scratch.balise(&words, b"");
    let answer = format!(
        "==> block <==\n{}==> other <==\nbalise make 1\nbits 210\n\
         refused 9 kind 250 word 23\n==> b ad <==\n{BAD}",
        made()
    );
    assert_answer(&ran, 2, &answer);
    let said = "balise: none: there is no such file\nbalise: b ad: character 50 at byte 1\n";
    assert_eq!(stderr(&ran), said);
    let ran = scratch.balise(&["make", "--status", "18", "119", "block", "other"], b"");
    assert_eq!(ran.status.code(), Some(1));
    let ran = scratch.balise(&["make", "--only", "18", "119", "block", "other"], b"");
    assert_no_answer(&ran, "with --only one file at a time");
}

#[test]
fn only_the_telegram() {
    let scratch = with_block();
    let telegram = made().lines().nth(3).expect("line four").to_string();
    let ran = scratch.balise(&["make", "--only", "18", "119", "block"], b"");
    assert_answer(&ran, 0, &format!("{telegram}\n"));
    let ran = scratch.balise(&["make", "--only", "18", "118", "block"], b"");
    assert_answer(&ran, 1, "");
    assert_eq!(
        stderr(&ran),
        "balise: block: refused 9 kind other word 23\n"
    );
    let ran = scratch.balise(&["make", "--only", "18", "1024", "block"], b"");
    assert_answer(&ran, 1, "");
    assert_eq!(stderr(&ran), "balise: block: refused 27\n");
    let ran = scratch.balise(&["make", "--only", "x", "119", "block"], b"");
    assert_answer(&ran, 1, "");
    assert_eq!(stderr(&ran), NO_B.replace("balise: ", "balise: bad: "));
}

/// A number that is missing or is none is the program's to judge. What stands in
/// its place is not opened, and nothing is answered for it.
#[test]
fn numbers_that_are_none() {
    let scratch = with_block();
    scratch.write("18x", &example("make_telegram"));
    let input = example("make_telegram");
    for (words, said) in [
        (&["make"][..], NO_B),
        (&["make", "18"], NO_ESB),
        (&["make", "block"], NO_B),
        (&["make", "18", "block"], NO_ESB),
        (&["make", "block", "119", "block"], NO_B),
        (&["make", "18", "block", "block"], NO_ESB),
        (&["make", "18x", "119", "block"], NO_B),
        (&["make", "", "119", "block"], NO_B),
        (&["make", "18", "", "block"], NO_ESB),
        (&["make", "1 8", "119", "block"], NO_B),
        (&["make", "*", "119", "block"], NO_B),
        (&["make", "18", "$((119))", "block"], NO_ESB),
        (&["make", "-", "119", "block"], NO_B),
        (&["make", "18", "-", "block"], NO_ESB),
        (&["make", "1234567890", "119", "block"], NO_B),
        (&["make", "--", "-1", "119", "block"], NO_B),
        (&["make", "18", "--", "-1", "block"], NO_ESB),
        (&["make", "--", "--status", "119", "block"], NO_B),
    ] {
        let ran = scratch.balise(words, input.as_bytes());
        assert_answer(&ran, 0, BAD);
        assert_eq!(stderr(&ran), said, "{words:?}");
        let asked: Vec<&str> = ["--status"].iter().chain(words).copied().collect();
        assert_answer(&scratch.balise(&asked, input.as_bytes()), 1, BAD);
    }
    // a sign is read as an option
    for words in [&["make", "-1", "119"][..], &["make", "18", "-1", "block"]] {
        let ran = scratch.balise(words, input.as_bytes());
        assert_no_answer(
            &ran,
            "no option '-1' here; a file or a number that begins with -",
        );
    }
    let ran = scratch.balise(&["18", "make", "119"], input.as_bytes());
    assert_no_answer(&ran, "no command '18'");
}

/// The input is opened before the numbers are judged.
#[test]
fn an_input_that_cannot_be_read() {
    let scratch = with_block();
    for words in ["make", "make 18", MAKE] {
        let ran = scratch.shell(&format!("./balise {words} <&-"));
        assert_no_answer(&ran, "balise: standard input: it is closed\n");
    }
    let ran = scratch.shell(&format!("./balise {MAKE} /proc/self/mem"));
    assert_no_answer(&ran, "balise: /proc/self/mem: the input cannot be read\n");
    let ran = scratch.shell(&format!("./balise {MAKE} docs block"));
    assert_answer(&ran, 2, &format!("==> block <==\n{}", made()));
    assert_eq!(stderr(&ran), "balise: docs: it is a folder\n");
}

/// Numbers go to make alone: another command opens them as files.
#[test]
fn numbers_of_other_commands() {
    let scratch = with_block();
    let ran = scratch.balise(&["check", "18", "119"], proper().as_bytes());
    assert_no_answer(&ran, "balise: 18: there is no such file\n");
    scratch.program(
        "check_telegram",
        "[ $# = 0 ] || exit 3; printf 'balise check 1\\nbits 0\\nlong proper\\n'",
    );
    scratch.shell("rm target/bin/check_telegram");
    scratch.write("18", "");
    let ran = scratch.balise(&["check", "18"], b"");
    assert_answer(&ran, 0, "balise check 1\nbits 0\nlong proper\n");
}

/// An answer without a telegram, or with one that has other characters, is none.
#[test]
fn no_whole_answer() {
    for text in [
        "balise make 1\\nbits 210\\nshort sb 18 esb 119\\n",
        "balise make 1\\nbits 210\\nshort sb 18 esb 119\\n\\n",
        "balise make 1\\nbits 210\\nshort sb 18 esb 119\\n012\\n",
        "balise make 1\\nbits 210\\nsb 18 esb 119\\n01\\n",
        "balise encode 1\\nbits 210\\nshort sb 18 esb 119\\n01\\n",
    ] {
        let scratch = Scratch::new();
        scratch.program("make_telegram", &format!("printf '{text}'"));
        let ran = scratch.balise(&["make", "18", "119"], b"");
        assert_no_answer(&ran, "make_telegram gave no answer");
    }
}

/// The round: what was read is made again, and is the box's telegram.
#[test]
fn read_and_made_again() {
    let scratch = with_block();
    scratch.write("window", &example("read_window"));
    let reading = stdout(&scratch.balise(&["read", "window"], b""));
    let lines: Vec<&str> = reading.lines().collect();
    assert_eq!(lines[2], "short turn 100 sb 18 flipped esb 119");
    let ran = scratch.balise(&["make", "18", "119"], lines[3].as_bytes());
    assert_answer(&ran, 0, &made());
}
