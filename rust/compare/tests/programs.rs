//! The seven programs against the second program, with the same arguments and on
//! the same standard input: all that they write, to standard output and to
//! standard error, is the same. Both are built before the tests run.

use compare::documents::document;
use compare::programs::{repository, run, stderr, stdout, Program, PROGRAMS};
use compare::telegrams::{random_telegram, telegram_of};
use second::appendices::{block_without_a_pair, well_formed_not_proper};
use second::bad_words::{bad_telegrams, every_word, BadTelegram};
use second::bits::{of_text, text};
use second::encode_skipping;
use second::format::{Format, FORMATS};
use second::made::{with_few_pairs, A_HUNDRED, ONE_MORE};
use second::random::Random;
use second::telegram::cut;
use second::words::Kind;
use std::collections::BTreeSet;
use std::ffi::OsStr;
use std::fs::File;
use std::os::unix::ffi::OsStrExt;
use std::process::{Command, Stdio};

/// What a program writes, to standard output and to standard error.
#[derive(Debug, PartialEq)]
struct Written {
    output: String,
    error: String,
}

/// What a program at this place writes, its arguments after the word. It exits
/// with 0.
fn written(
    place: &str,
    word: Option<&str>,
    arguments: &[impl AsRef<OsStr>],
    from: Stdio,
    input: &[u8],
) -> Written {
    let mut command = Command::new(repository().join(place));
    let ran = run(command.args(word).args(arguments), from, input);
    assert_eq!(ran.status.code(), Some(0), "{command:?}");
    Written {
        output: stdout(&ran),
        error: stderr(&ran),
    }
}

/// The program that does what the second program does by this word.
fn program(kind: &str) -> &'static Program {
    let program = PROGRAMS.iter().find(|program| program.word == kind);
    program.expect("a kind")
}

/// What both programs write, each with these arguments and its input from such a
/// place; on standard error one line where the answer is bad, and else nothing.
fn agreed_with(
    kind: &str,
    arguments: &[impl AsRef<OsStr>],
    from: impl Fn() -> Stdio,
    input: &[u8],
) -> Written {
    let ours = format!("target/bin/{}", program(kind).name);
    let ours = written(&ours, None, arguments, from(), input);
    let second = "rust/target/release/second";
    let second = written(second, Some(kind), arguments, from(), input);
    assert_eq!(ours, second, "{kind}");
    let bad = ours.output.ends_with("bad\n");
    assert_eq!(ours.error.lines().count(), usize::from(bad), "{kind}");
    ours
}

/// The same with the arguments of the stored example.
fn agreed_from(kind: &str, from: impl Fn() -> Stdio, input: &[u8]) -> Written {
    agreed_with(kind, &program(kind).arguments(), from, input)
}

/// What both programs write to standard output on this input.
fn agreed(kind: &str, input: &[u8]) -> String {
    agreed_from(kind, Stdio::piped, input).output
}

/// The line that both programs write to standard error on this bad text.
fn complaint(kind: &str, input: &[u8]) -> String {
    let written = agreed_from(kind, Stdio::piped, input);
    assert!(written.output.ends_with("bad\n"), "{kind}");
    written.error
}

/// A text of so many bits, with so many line ends among them.
fn with_line_ends(random: &mut Random, bits: usize, ends: usize) -> Vec<u8> {
    let mut input = text(&random.bits(bits)).into_bytes();
    for _ in 0..ends {
        let place = random.below(input.len() + 1);
        input.insert(place, [10, 13][random.below(2)]);
    }
    input
}

/// A byte that is neither a bit nor a line end.
fn other(random: &mut Random) -> u8 {
    loop {
        let byte = random.below(256) as u8;
        if ![10, 13, b'0', b'1'].contains(&byte) {
            return byte;
        }
    }
}

#[test]
fn bad_texts_and_lengths() {
    for Program {
        word: kind, limit, ..
    } in PROGRAMS
    {
        for length in [
            0, 1, 209, 210, 211, 340, 342, 461, 463, 829, 831, 1022, 1024, 1099, 1101,
        ] {
            agreed(kind, text(&vec![0; length]).as_bytes());
        }
        for input in ["01\r\n10\n", "2", "01 ", "0\t1", "\n\n\n", "01\u{e9}"] {
            agreed(kind, input.as_bytes());
        }
        let full = text(&vec![0; limit]);
        let more = format!("balise: more than {limit} bits\n");
        for end in ["0", "1x", "\n1", "\r\n\n0x"] {
            assert_eq!(complaint(kind, format!("{full}{end}").as_bytes()), more);
        }
        for (end, byte, place) in [("x", 120, 1), ("x1", 120, 1), ("\n\0x", 0, 2)] {
            assert_eq!(
                complaint(kind, format!("{full}{end}").as_bytes()),
                format!("balise: character {byte} at byte {}\n", limit + place)
            );
        }
    }
}

#[test]
fn faults_of_long_texts() {
    let mut random = Random::new(34);
    for Program {
        word: kind, limit, ..
    } in PROGRAMS
    {
        for round in 0..12 {
            let ends = 4096 + random.below(9000);
            let good = with_line_ends(&mut random, limit, ends);
            let mut input = good.clone();
            for _ in 0..=round % 2 {
                let place = random.below(input.len() + 1);
                input.insert(place, other(&mut random));
            }
            assert!(complaint(kind, &input).contains(" at byte "));
            // one bit too many, before or after the other characters
            let place = random.below(input.len() + 1);
            input.insert(place, b'1');
            complaint(kind, &input);
            let mut input = good;
            let place = random.below(input.len() + 1);
            input.insert(place, b'0');
            assert!(complaint(kind, &input).contains(" more than "));
            input.push(other(&mut random));
            assert!(complaint(kind, &input).contains(" more than "));
        }
        // the place of a byte that many reads come before
        let mut input = vec![10; 100_000];
        input.push(b'2');
        assert_eq!(
            complaint(kind, &input),
            "balise: character 50 at byte 100001\n"
        );
    }
}

#[test]
fn a_read_that_fails() {
    for program in PROGRAMS {
        let folder = || Stdio::from(File::open(repository()).expect("a folder"));
        assert_eq!(
            agreed_from(program.word, folder, b""),
            Written {
                output: program.heading() + "bad\n",
                error: String::from("balise: the input cannot be read\n"),
            }
        );
    }
}

#[test]
fn encode_then_check() {
    let mut random = Random::new(31);
    for format in FORMATS {
        for _ in 0..3 {
            let block = random.bits(format.user_bits());
            let written = agreed("encode", text(&block).as_bytes());
            let telegram = written.lines().nth(3).expect("a telegram");
            let checked = agreed("check", telegram.as_bytes());
            assert!(checked.ends_with("proper\n"));
            let mut damaged = telegram.as_bytes().to_vec();
            let place = random.below(damaged.len());
            damaged[place] ^= 1;
            assert!(agreed("check", &damaged).contains("refused"));
        }
    }
}

/// All pairs are tried. The second program's line is that of its quicker search.
#[test]
fn a_block_without_a_pair() {
    let block = block_without_a_pair();
    let refusal = encode_skipping(&block, &mut [0; 1023]).expect_err("no pair");
    let ours = format!("target/bin/{}", program("encode").name);
    let none: &[&str] = &[];
    let ours = written(&ours, None, none, Stdio::piped(), text(&block).as_bytes());
    let output = format!("balise encode 1\nbits {}\n{refusal}\n", block.len());
    let error = String::new();
    assert_eq!(ours, Written { output, error });
}

#[test]
fn windows_and_captures() {
    let mut random = Random::new(32);
    for format in FORMATS {
        let telegram = random_telegram(&mut random, format);
        for round in 0..30 {
            let turn = random.below(telegram.len());
            let mut window = cut(&telegram, turn, format.window_bits(), round % 2 == 1);
            if round % 3 == 2 {
                let place = random.below(window.len());
                window[place] ^= 1;
            }
            agreed("read", text(&window).as_bytes());
            agreed("read-well-formed", text(&window).as_bytes());
            let before = random.below(3000);
            let mut capture = random.bits(before);
            capture.extend(&window);
            capture.extend(random.bits(200));
            agreed("capture", text(&capture).as_bytes());
        }
    }
}

/// Windows of telegrams that are well-formed and not proper: read refuses them,
/// the search passes over them, and read-well-formed reads them.
#[test]
fn windows_that_are_not_proper() {
    let mut random = Random::new(35);
    let accepted = text(&cut(&telegram_of(&random.bits(210)), 0, 462, false));
    for telegram in well_formed_not_proper() {
        let format = Format::of_telegram(telegram.len()).expect("a telegram");
        let turn = random.below(telegram.len());
        for flipped in [false, true] {
            let window = text(&cut(&telegram, turn, format.window_bits(), flipped));
            let refusal = second::check(&telegram).expect_err("a refusal");
            let refused = agreed("read", window.as_bytes());
            assert!(refused.ends_with(&format!("\nrefused {}\n", refusal.number())));
            let read = agreed("read-well-formed", window.as_bytes());
            assert_eq!(read.lines().count(), 4);
            assert!(agreed("capture", window.as_bytes()).ends_with("none\n"));
            let capture = format!("{window}\n{accepted}\n");
            assert!(agreed("capture", capture.as_bytes()).contains("\nshort place "));
        }
    }
}

/// Telegrams of a format with bad words: for every kind at every index one, with
/// two later bad words where there is room for them.
fn with_bad_words(format: Format) -> Vec<BadTelegram> {
    let mut telegrams = bad_telegrams(&mut Random::new(38));
    telegrams.retain(|telegram| telegram.format == format);
    telegrams.reverse();
    telegrams.sort_by_key(|telegram| telegram.bad[0]);
    telegrams.dedup_by_key(|telegram| telegram.bad[0]);
    telegrams
}

/// The line of refusal 9 (document 02, No. 13).
fn bad_word_line(telegram: &BadTelegram) -> String {
    let (index, kind) = telegram.bad[0];
    let name = match kind {
        Kind::Group250 => "250",
        Kind::Group20 => "20",
        Kind::Other => "other",
    };
    format!("refused 9 kind {name} word {index}")
}

/// What is wrong with which word, by every program that says it, for every kind
/// at every index; by each window program at one turn and one way up. The search
/// says none, as ever.
#[test]
fn bad_words() {
    let mut random = Random::new(39);
    for format in FORMATS {
        let (n, m, l) = (
            format.telegram_bits(),
            format.user_bits(),
            format.window_bits(),
        );
        let (mut named, mut made) = (BTreeSet::new(), BTreeSet::new());
        for telegram in with_bad_words(format) {
            let line = bad_word_line(&telegram);
            let checked = agreed("check", text(&telegram.bits).as_bytes());
            assert_eq!(checked, format!("balise check 1\nbits {n}\n{line}\n"));
            for kind in ["read", "read-well-formed"] {
                let (turn, flipped) = (random.below(n), random.below(2) == 1);
                let window = cut(&telegram.bits, turn, l, flipped);
                let read = agreed(kind, text(&window).as_bytes());
                assert_eq!(read, format!("balise {kind} 1\nbits {l}\n{line}\n"));
            }
            named.insert(telegram.bad[0]);
            if let Some((block, b, esb)) = telegram.made_of() {
                let pair = [b, esb].map(|number| number.to_string());
                let pair = [&pair[0][..], &pair[1]];
                let answer = make(&pair, text(&block).as_bytes()).output;
                assert_eq!(answer, format!("balise make 1\nbits {m}\n{line}\n"));
                made.insert(telegram.bad[0]);
                let window = cut(&telegram.bits, random.below(n), l, false);
                assert!(agreed("capture", text(&window).as_bytes()).ends_with("none\n"));
            }
        }
        assert_eq!(named, every_word(format, 0));
        assert_eq!(made, every_word(format, format.blocks()));
    }
}

#[test]
fn captures_at_the_limit() {
    assert!(agreed("capture", b"").ends_with("none\n"));
    for bit in [0, 1] {
        assert!(agreed("capture", text(&vec![bit; 7500]).as_bytes()).ends_with("none\n"));
        assert!(agreed("capture", text(&vec![bit; 7501]).as_bytes()).ends_with("bad\n"));
    }
    let mut random = Random::new(33);
    let telegram = telegram_of(&random.bits(210));
    let mut capture = random.bits(7500 - 462);
    capture.extend(cut(&telegram, 17, 462, true));
    assert!(agreed("capture", text(&capture).as_bytes()).contains("place"));
}

/// What the toolchain runs each program on, and what it is to write.
#[test]
fn stored_examples() {
    for Program {
        name, word: kind, ..
    } in PROGRAMS
    {
        let input = document(&format!("crates/{name}/stdin"));
        let output = document(&format!("crates/{name}/stdout"));
        assert_eq!(agreed(kind, input.as_bytes()), output);
    }
    assert_eq!(program("make").arguments().len(), 2);
}

/// What both programs make of a block with these arguments.
fn make(arguments: &[&str], block: &[u8]) -> Written {
    agreed_with("make", arguments, Stdio::piped, block)
}

/// Arguments that are no numbers of one to nine digits.
const NO_NUMBERS: [&[u8]; 24] = [
    b"",
    b"-1",
    b"+1",
    b"-",
    b" 1",
    b"1 ",
    b" ",
    b"1x",
    b"x1",
    b"x",
    b"1.0",
    b"1,0",
    b"0x1",
    b"1e1",
    b"1\n",
    b"/1",
    b"1:",
    b"1234567890",
    b"0000000018",
    b"99999999999999999999999999",
    b"\xff",
    b"1\xff",
    b"\xc2\xb9",
    b"\xd9\xa1",
];

/// The arguments are tested before the text is read, B first: whatever the text
/// is, and also where it cannot be read.
#[test]
fn arguments_that_are_no_numbers() {
    let good = document("crates/make_telegram/stdin");
    let folder = || Stdio::from(File::open(repository()).expect("a folder"));
    let bad = |which: &str| Written {
        output: String::from("balise make 1\nbad\n"),
        error: format!("balise: the {which}, one to nine digits\n"),
    };
    let (first, second) = (
        bad("first argument must be B"),
        bad("second argument must be esb"),
    );
    let pair = ["18", "119"].map(OsStr::new);
    let mut lists = vec![(vec![], &first), (vec![pair[0]], &second)];
    for bytes in NO_NUMBERS {
        let no_number = OsStr::from_bytes(bytes);
        lists.extend([
            (vec![no_number], &first),
            (vec![no_number, pair[1]], &first),
            (vec![no_number, no_number], &first),
            (vec![no_number, pair[1], pair[0]], &first),
            (vec![pair[0], no_number], &second),
            (vec![pair[0], no_number, pair[1]], &second),
        ]);
    }
    for (arguments, expected) in &lists {
        for text in [good.as_bytes(), b"x", b""] {
            let written = agreed_with("make", arguments, Stdio::piped, text);
            assert_eq!(written, **expected, "{arguments:?}");
        }
        assert_eq!(agreed_with("make", arguments, folder, b""), **expected);
    }
    println!(
        "{} lists of arguments that are not two numbers",
        lists.len()
    );
}

/// Leading zeros do not count, and what comes after two numbers is not looked at.
#[test]
fn arguments_that_are_numbers() {
    let block = document("crates/make_telegram/stdin");
    let block = block.as_bytes();
    let answer = make(&["18", "119"], block);
    assert!(answer.output.contains("\nshort sb 18 esb 119\n"));
    for arguments in [
        &["018", "119"][..],
        &["000000018", "000000119"],
        &["18", "0119"],
        &["18", "119", "7"],
        &["18", "119", "x"],
        &["18", "119", ""],
        &["18", "119", "-1", "1234567890"],
    ] {
        assert_eq!(make(arguments, block), answer);
    }
    let third = ["18", "119"].map(OsStr::new);
    let third = [&third[..], &[OsStr::from_bytes(b"\xff")]].concat();
    assert_eq!(agreed_with("make", &third, Stdio::piped, block), answer);
    for (arguments, refused) in [
        (["119", "18"], "9 kind "),
        (["0", "0"], "9 kind "),
        (["000000000", "000000000"], "9 kind "),
        (["4095", "1023"], "9 kind "),
        (["4096", "119"], "27\n"),
        (["18", "1024"], "27\n"),
        (["999999999", "119"], "27\n"),
        (["18", "999999999"], "27\n"),
        (["65554", "119"], "27\n"),
        (["18", "65655"], "27\n"),
    ] {
        let refused = format!("balise make 1\nbits 210\nrefused {refused}");
        let answer = make(&arguments, block).output;
        assert!(answer.starts_with(&refused), "{answer}");
        assert_eq!(answer.lines().count(), 3);
    }
    // refusal 1 comes before 27
    let refused = "balise make 1\nbits 3\nrefused 1\n";
    assert_eq!(make(&["4096", "1024"], b"010").output, refused);
}

/// Blocks with random pairs, and with those of the encoder.
#[test]
fn pairs() {
    let mut random = Random::new(36);
    for format in FORMATS {
        for _ in 0..40 {
            let block = text(&random.bits(format.user_bits()));
            let (b, esb) = (random.below(4200), random.below(1050));
            make(&[&b.to_string(), &esb.to_string()], block.as_bytes());
        }
        for _ in 0..3 {
            let block = text(&random.bits(format.user_bits()));
            let encoded = agreed("encode", block.as_bytes());
            let lines: Vec<&str> = encoded.lines().collect();
            let words: Vec<&str> = lines[2].split(' ').collect();
            let made = make(&[words[2], words[4]], block.as_bytes()).output;
            let bits = format.user_bits();
            let facts = words[..5].join(" ");
            let telegram = lines[3];
            assert_eq!(
                made,
                format!("balise make 1\nbits {bits}\n{facts}\n{telegram}\n")
            );
        }
    }
}

/// What was read, by each of the three programs, is made again: cut at the turn
/// and flipped as the answer says, it is the window's first n bits.
#[test]
fn read_and_made_again() {
    let mut random = Random::new(37);
    let mut telegrams: Vec<Vec<u8>> = well_formed_not_proper().into_iter().step_by(9).collect();
    for format in FORMATS {
        telegrams.push(random_telegram(&mut random, format));
        telegrams.push(random_telegram(&mut random, format));
    }
    let mut again = 0;
    for telegram in telegrams {
        let format = Format::of_telegram(telegram.len()).expect("a telegram");
        let n = format.telegram_bits();
        for flipped in [false, true] {
            let window = cut(&telegram, random.below(n), format.window_bits(), flipped);
            for kind in ["read", "read-well-formed", "capture"] {
                let answer = agreed(kind, text(&window).as_bytes());
                let lines: Vec<&str> = answer.lines().collect();
                let Some(user) = lines.get(3) else {
                    assert!(second::check(&telegram).is_err());
                    continue;
                };
                let words: Vec<&str> = lines[2].split(' ').collect();
                let [.., "turn", turn, "sb", b, way, "esb", esb] = words[..] else {
                    panic!("{words:?}");
                };
                let made = make(&[b, esb], user.as_bytes()).output;
                let made = made.lines().nth(3).expect("a telegram");
                let made = of_text(made.as_bytes()).expect("bits");
                let turn = turn.parse().expect("a turn");
                assert_eq!(cut(&made, turn, n, way == "flipped"), window[..n]);
                again += 1;
            }
        }
    }
    println!("{again} telegrams made again by the programs");
    assert!(again > 30);
}

/// The pairs in a list of the program, and its last line.
fn listed(block: &[u8]) -> (usize, String) {
    let written = agreed("pairs", text(block).as_bytes());
    let (pairs, last) = written
        .trim_end_matches('\n')
        .rsplit_once('\n')
        .unwrap_or(("", written.trim_end_matches('\n')));
    (pairs.lines().count(), last.to_string())
}

/// Lists with more than a hundred pairs, exactly a hundred, fewer and none (document
/// 02, No. 9). The first pair is that of encode.
#[test]
fn lists_of_pairs() {
    let mut random = Random::new(40);
    for format in FORMATS {
        for _ in 0..4 {
            let block = random.bits(format.user_bits());
            assert_eq!(listed(&block), (100, String::from("more")));
            let encoded = agreed("encode", text(&block).as_bytes());
            let words: Vec<&str> = encoded.split_whitespace().collect();
            let first = format!("{} {}\n", words[7], words[9]);
            assert!(agreed("pairs", text(&block).as_bytes()).starts_with(&first));
        }
    }
    let few = |place| with_few_pairs(place).expect("a block");
    assert_eq!(listed(&few(ONE_MORE)), (100, String::from("more")));
    assert_eq!(listed(&few(A_HUNDRED)), (100, String::from("end")));
    assert_eq!(listed(&block_without_a_pair()), (0, String::from("end")));
    for place in [808, 763, 686] {
        let (pairs, last) = listed(&few(place));
        assert!((1..100).contains(&pairs) && last == "end");
    }
}

/// A block of a wrong length is bad, and its length is said; so is no text at all.
#[test]
fn blocks_that_cannot_be_listed() {
    let mut random = Random::new(41);
    for length in (0..830).filter(|length| length % 37 == 0 || (205..215).contains(length)) {
        if length == 210 {
            continue;
        }
        let input = text(&random.bits(length));
        let why = format!("balise: a block has 830 or 210 bits, and this has {length}\n");
        for end in ["", "\n", "\r\n\r\n"] {
            let input = format!("{input}{end}");
            assert_eq!(complaint("pairs", input.as_bytes()), why);
            assert_eq!(agreed("pairs", input.as_bytes()), "bad\n");
        }
    }
}
