//! A C program against include/balise.h and the static library: its answers are
//! those of the balise package.

use balise::{Choice, Encoded, Format, Found, Pair, Reading, Refusal};
use balise::{CAPTURE_LIMIT, MAX_TELEGRAM_BITS, MAX_USER_BITS};
use compare::documents::document;
use compare::programs::{repository, run, stdout};
use compare::telegrams::{random_telegram, with_word};
use second::appendices::well_formed_not_proper;
use second::bad_words::word_of_kind;
use second::bits::text;
use second::format::FORMATS;
use second::random::Random;
use second::telegram::cut;
use second::words::KINDS;
use std::fmt::Write as _;
use std::path::{Path, PathBuf};
use std::process::{Command, Stdio};

/// Builds tests/header.c. Cargo needs the compiler too, as its linker.
fn built() -> PathBuf {
    let program = Path::new(env!("CARGO_TARGET_TMPDIR")).join("header");
    let built = Command::new("cc")
        .args(["-std=c99", "-Wall", "-Wextra", "-Wconversion", "-pedantic"])
        .args(["-Werror", "-O1", "-I"])
        .arg(repository().join("include"))
        .arg(repository().join("rust/compare/tests/header.c"))
        .arg(repository().join("target/staticlib/libbalise.a"))
        .arg("-o")
        .arg(&program)
        .status()
        .expect("a C compiler, cc");
    assert!(built.success());
    program
}

/// What the program writes on this capture.
fn written(program: &Path, capture: &[u8]) -> String {
    let ran = run(&mut Command::new(program), Stdio::piped(), capture);
    assert!(ran.status.success());
    stdout(&ran)
}

fn format_bit(format: Format) -> u8 {
    u8::from(format == Format::Short)
}

/// The line of a refusal, with what 9 carries or this many fields that are 0.
/// The bits that have no field are 0.
fn refusal_line(call: &str, refusal: Refusal, fields: usize) -> String {
    let number = refusal.number();
    match refusal {
        Refusal::NotWord { kind, index } => format!("{call} {number} kind {kind} word {index} 0\n"),
        _ => format!("{call} {number}{}\n", " 0".repeat(fields)),
    }
}

/// The line of an answer of make or check.
fn format_line(call: &str, answer: Result<Format, Refusal>) -> String {
    match answer {
        Ok(format) => format!("{call} 0 {} 0\n", format_bit(format)),
        Err(refusal) => refusal_line(call, refusal, 2),
    }
}

/// The line of a window found at a place. The bits that have no field are 0.
fn found_line(call: &str, answer: Result<Found, Refusal>) -> String {
    match answer {
        Ok(Found { place, reading }) => format!(
            "{call} 0 {} {} {} {} {} {place} 0\n",
            format_bit(reading.format),
            reading.b,
            reading.turn,
            u8::from(reading.flipped),
            reading.esb
        ),
        Err(refusal) => refusal_line(call, refusal, 7),
    }
}

/// The line of a window call, whose place is 0.
fn reading_line(call: &str, answer: Result<Reading, Refusal>) -> String {
    found_line(call, answer.map(|reading| Found { place: 0, reading }))
}

/// The lines of the user bits of a reading, and of the telegram made again of
/// them.
fn made_lines(user: &[u8], reading: &Reading) -> String {
    let format = reading.format;
    let user = &user[..format.user_bits()];
    let mut telegram = [0; MAX_TELEGRAM_BITS];
    let (b, esb) = (reading.b.into(), reading.esb.into());
    let made = balise::make(user, b, esb, &mut telegram);
    assert_eq!(made, Ok(format));
    let bits = text(&telegram[..format.telegram_bits()]);
    format!("{}\n{}{bits}\n", text(user), format_line("make", made))
}

/// The lines of other pairs with the user bits of a reading.
fn other_pairs(user: &[u8], reading: &Reading) -> String {
    let user = &user[..reading.format.user_bits()];
    let mut telegram = [0; MAX_TELEGRAM_BITS];
    let with_b = (0..100).map(|esb| (reading.b.into(), esb));
    let mut line = |(b, esb)| format_line("make", balise::make(user, b, esb, &mut telegram));
    [(0, 0)].into_iter().chain(with_b).map(&mut line).collect()
}

/// The line of an answer of next. The bits that have no field are 0.
fn next_line(answer: Result<Option<Pair>, Refusal>) -> String {
    match answer {
        Ok(Some(Pair { format, b, esb })) => {
            format!("next 0 {} {b} {esb} 0 0\n", format_bit(format))
        }
        Ok(None) => String::from("next 0 0 0 0 1 0\n"),
        Err(refusal) => refusal_line("next", refusal, 5),
    }
}

/// The lines of what is next from some starts, and those of all pairs.
fn pair_lines(user: &[u8], reading: &Reading) -> String {
    let user = &user[..reading.format.user_bits()];
    let (b, esb) = (u64::from(reading.b), u64::from(reading.esb));
    let n = reading.format.telegram_bits();
    let mut telegram = [0; MAX_TELEGRAM_BITS];
    let mut line =
        |block, b, esb, room| next_line(balise::next(block, b, esb, &mut telegram[..room]));
    let mut lines = [
        line(user, 0, 0, MAX_TELEGRAM_BITS),
        line(user, b, esb, n),
        line(user, b + 1, 0, n),
        line(user, 4095, 1023, n),
        line(&user[1..], b, esb, n),
        line(&vec![7; user.len()], b, esb, 0),
        line(user, 4096, esb, 0),
        line(user, b, 1024, n),
        line(user, u64::MAX, esb, n),
        line(user, b, 1 << 32 | esb, n),
        line(user, b, esb, n - 1),
    ]
    .concat();
    let numbers = [1, 2, 27, 27, 27, 27, 3].map(|number| format!("next {number} 0 0 0 0 0\n"));
    assert!(lines.ends_with(&(String::from("next 0 0 0 0 1 0\n") + &numbers.concat())));
    for Choice { pair, telegram } in balise::pairs(user).expect("a block") {
        writeln!(lines, "pair {} {}", pair.b, pair.esb).unwrap();
        writeln!(lines, "{}", text(&telegram)).unwrap();
    }
    lines
}

fn sizes() -> String {
    let mut lines = String::new();
    for format in Format::ALL {
        let (m, n) = (format.user_bits(), format.telegram_bits());
        writeln!(lines, "sizes {m} {n} {}", format.window_bits()).unwrap();
    }
    writeln!(lines, "limit {CAPTURE_LIMIT}").unwrap();
    lines
}

/// One of the encoders.
type Encode = fn(&[u8], &mut [u8]) -> Result<Encoded, Refusal>;

/// What the C program is to write on this capture.
fn expected(capture: &[u8]) -> String {
    let mut user = [0; MAX_USER_BITS];
    let mut lines = sizes();
    let zeros = balise::read(&[0; 462], &mut user);
    assert_eq!(zeros, Err(Refusal::NoTurn));
    lines += &reading_line("read", zeros);
    let zeros = balise::read_well_formed(&[0; 462], &mut user);
    assert_eq!(zeros, Err(Refusal::NoTurn));
    lines += &reading_line("read_well_formed", zeros);
    lines += &format_line("check", balise::check(capture));
    lines += &reading_line("read", balise::read(capture, &mut user));
    let answer = balise::read_well_formed(capture, &mut user);
    lines += &reading_line("read_well_formed", answer);
    if let Ok(reading) = answer {
        lines += &made_lines(&user, &reading);
    }
    lines += &found_line("search_plain", balise::search_plain(capture));
    let answer = balise::search(capture);
    lines += &found_line("search", answer);
    let Ok(found) = answer else {
        return lines;
    };
    let reading = balise::read(balise::stretch(capture), &mut user);
    assert_eq!(reading, Ok(found.reading));
    lines += &reading_line("read", reading);
    lines += &made_lines(&user, &found.reading);
    lines += &other_pairs(&user, &found.reading);
    let too_large = Refusal::PairTooLarge.number();
    lines += &format!("make {too_large} 0 0\n").repeat(4);
    lines += &pair_lines(&user, &found.reading);
    let format = found.reading.format;
    let (m, n) = (format.user_bits(), format.telegram_bits());
    let mut telegram = [0; MAX_TELEGRAM_BITS];
    let encoders: [(&str, Encode); 2] = [
        ("encode_plain", balise::encode_plain),
        ("encode", balise::encode),
    ];
    for (call, encode) in encoders {
        telegram.fill(0);
        let encoded = encode(&user[..m], &mut telegram).expect("a pair");
        let Encoded { b, esb, count, .. } = encoded;
        let bit = format_bit(encoded.format);
        writeln!(lines, "{call} 0 {bit} {b} {esb} {count}").unwrap();
        writeln!(lines, "{}", text(&telegram[..n])).unwrap();
    }
    lines += &format_line("check", balise::check(&telegram[..n]));
    telegram[0] ^= 1;
    lines += &format_line("check", balise::check(&telegram[..n]));
    lines
}

/// The loop that the header shows is the one that the C program runs.
#[test]
fn the_loop_of_the_header() {
    let (header, program) = (
        document("include/balise.h"),
        document("rust/compare/tests/header.c"),
    );
    let (_, shown) = header.split_once("This lists every pair").expect("a loop");
    let (shown, _) = shown.split_once("*/").expect("its end");
    let lines = shown.lines().skip(1).map(|line| {
        let line = line.trim_start_matches(" *").trim_end();
        line.strip_prefix("   ").unwrap_or(line)
    });
    let shown: String = lines
        .filter(|line| !line.is_empty())
        .map(|line| format!("    {line}\n"))
        .collect();
    assert!(shown.contains("    while (") && shown.ends_with("\n    }\n"));
    assert!(program.contains(&shown), "{shown}");
}

#[test]
fn c_program() {
    let program = built();
    let mut random = Random::new(91);
    for format in FORMATS {
        let telegram = random_telegram(&mut random, format);
        for flipped in [false, true] {
            let turn = random.below(telegram.len());
            let noise = random.bits(700);
            let capture = [noise, cut(&telegram, turn, 3000, flipped)].concat();
            let output = written(&program, &capture);
            assert_eq!(output, expected(&capture));
            assert!(output.contains("\ncheck 0 "));
            assert!(output.contains("\nmake 9 kind 250 word "));
        }
    }
    for telegram in well_formed_not_proper() {
        let format = second::Format::of_telegram(telegram.len()).expect("a telegram");
        let window = cut(&telegram, 9, format.window_bits(), false);
        let output = written(&program, &window);
        assert_eq!(output, expected(&window));
        assert!(output.contains("\nread_well_formed 0 "));
        assert!(output.contains("\nmake 0 "));
        assert!(output.ends_with("\nsearch 13 0 0 0 0 0 0 0\n"));
    }
    for format in FORMATS {
        for kind in KINDS {
            let index = random.below(format.blocks());
            let word = word_of_kind(&mut random, kind);
            let telegram = random_telegram(&mut random, format);
            let telegram = with_word(&telegram, format, index, word);
            let window = cut(&telegram, random.below(341), format.window_bits(), true);
            let line = |call| format!("\n{call} 9 kind {} word {index} 0\n", kind.name());
            let output = written(&program, &telegram);
            assert_eq!(output, expected(&telegram));
            assert!(output.contains(&line("check")));
            let output = written(&program, &window);
            assert_eq!(output, expected(&window));
            assert!(output.contains(&line("read")));
            assert!(output.contains(&line("read_well_formed")));
        }
    }
    for capture in [
        vec![],
        vec![2],
        random.bits(7500),
        random.bits(7501),
        vec![0; 462],
    ] {
        assert_eq!(written(&program, &capture), expected(&capture));
    }
}
