//! The program's whole output.

use std::io::Write;
use std::process::{Command, Stdio};

use second::appendices::{block_without_a_pair, well_formed_not_proper};
use second::bad_words::bad_telegrams;
use second::bits::text;
use second::made::{with_few_pairs, A_HUNDRED, ONE_MORE};
use second::random::Random;
use second::read::user_bits_of;
use second::telegram::{b_of, cut, esb_of};
use second::words::{Kind, KINDS};
use second::{check, encode_skipping, pairs_skipping, Format};

/// What the program writes to standard output and to standard error. The words
/// are its arguments.
fn written(words: &str, input: &str) -> [String; 2] {
    let mut child = Command::new(env!("CARGO_BIN_EXE_second"))
        .args(words.split(' '))
        .stdin(Stdio::piped())
        .stdout(Stdio::piped())
        .stderr(Stdio::piped())
        .spawn()
        .unwrap();
    let mut stdin = child.stdin.take().unwrap();
    // a program that does not read its input may be gone before it is written
    let _ = stdin.write_all(input.as_bytes());
    drop(stdin);
    let output = child.wait_with_output().unwrap();
    [output.stdout, output.stderr].map(|bytes| String::from_utf8(bytes).unwrap())
}

/// What the program writes to standard output on a good text.
fn run(words: &str, input: &str) -> String {
    let [output, error] = written(words, input);
    assert_eq!(error, "");
    output
}

#[test]
fn capture_of_zeros() {
    let expected = "balise capture 1\nbits 462\nnone\n";
    assert_eq!(run("capture", &"0".repeat(462)), expected);
    assert_eq!(run("capture", &"0\r\n".repeat(462)), expected);
    assert_eq!(run("capture", ""), "balise capture 1\nbits 0\nnone\n");
}

/// The first line of an answer; that of pairs has none.
fn heading(words: &str) -> String {
    match words.split(' ').next().unwrap() {
        "pairs" => String::new(),
        kind => format!("balise {kind} 1\n"),
    }
}

#[test]
fn bad_input() {
    for (words, limit) in [
        ("encode", 830),
        ("check", 1023),
        ("read", 1100),
        ("read-well-formed", 1100),
        ("capture", 7500),
        ("make 18 5", 830),
        ("pairs", 830),
    ] {
        let full = "0".repeat(limit);
        let other = String::from("balise: character 32 at byte 2\n");
        let more = format!("balise: more than {limit} bits\n");
        for (input, line) in [
            ("0 1", other),
            (&format!("{full}1 "), more.clone()),
            (&format!("{full}\r\n1"), more),
            (
                &format!("{full}\n\u{7f}1"),
                format!("balise: character 127 at byte {}\n", limit + 2),
            ),
        ] {
            let bad = format!("{}bad\n", heading(words));
            assert_eq!(written(words, input), [bad, line]);
        }
        run(words, &full);
    }
}

#[test]
fn refused() {
    assert_eq!(run("encode", "01"), "balise encode 1\nbits 2\nrefused 1\n");
    assert_eq!(run("check", "01"), "balise check 1\nbits 2\nrefused 1\n");
    assert_eq!(run("make 18 5", "01"), "balise make 1\nbits 2\nrefused 1\n");
    for (words, number) in [
        ("make 4096 5", 27),
        ("make 18 1024", 27),
        ("make 999999999 999999999", 27),
    ] {
        assert_eq!(
            run(words, &"0".repeat(210)),
            format!("balise make 1\nbits 210\nrefused {number}\n")
        );
    }
    for kind in ["read", "read-well-formed"] {
        assert_eq!(
            run(kind, &"0".repeat(462)),
            format!("balise {kind} 1\nbits 462\nrefused 7\n")
        );
    }
}

/// What is wrong with which word (document 02, No. 13): the third line of check,
/// of both window calls whatever the turn and the way up, and of make, for every
/// kind and at every index that is tried. The search finds nothing, as ever.
#[test]
fn bad_words() {
    let mut seen = [0; KINDS.len()];
    for telegram in bad_telegrams(&mut Random::new(150)).iter().step_by(23) {
        let (index, kind) = telegram.bad[0];
        let name = match kind {
            Kind::Group250 => "250",
            Kind::Group20 => "20",
            Kind::Other => "other",
        };
        let refused = |bits: usize| format!("bits {bits}\nrefused 9 kind {name} word {index}\n");
        let (bits, n) = (&telegram.bits, telegram.bits.len());
        assert_eq!(
            run("check", &text(bits)),
            format!("balise check 1\n{}", refused(n))
        );
        let window = cut(
            bits,
            17 * index + 5,
            telegram.format.window_bits(),
            index % 2 == 0,
        );
        for kind in ["read", "read-well-formed"] {
            assert_eq!(
                run(kind, &text(&window)),
                format!("balise {kind} 1\n{}", refused(window.len()))
            );
        }
        assert_eq!(
            run("capture", &text(&window)),
            format!("balise capture 1\nbits {}\nnone\n", window.len())
        );
        if let Some((block, b, esb)) = telegram.made_of() {
            assert_eq!(
                run(&format!("make {b} {esb}"), &text(&block)),
                format!("balise make 1\n{}", refused(block.len()))
            );
            seen[kind as usize] += 1;
        }
    }
    assert!(seen.iter().all(|&count| count > 0));
}

#[test]
fn accepted() {
    let user = [0; 210];
    let mut telegram = [0; 341];
    let encoded = encode_skipping(&user, &mut telegram).unwrap();
    let (b, esb, count) = (encoded.b, encoded.esb, encoded.count);
    assert_eq!(
        run("encode", &text(&user)),
        format!(
            "balise encode 1\nbits 210\nshort sb {b} esb {esb} tried {count}\n{}\n",
            text(&telegram)
        )
    );
    assert_eq!(
        run("check", &text(&telegram)),
        "balise check 1\nbits 341\nshort proper\n"
    );
    let window = cut(&telegram, 12, Format::Short.window_bits(), true);
    for kind in ["read", "read-well-formed"] {
        assert_eq!(
            run(kind, &text(&window)),
            format!(
                "balise {kind} 1\nbits 462\nshort turn 12 sb {b} flipped esb {esb}\n{}\n",
                text(&user)
            )
        );
    }
    assert_eq!(
        run("capture", &text(&window)),
        format!(
            "balise capture 1\nbits 462\nshort place 0 turn 12 sb {b} flipped esb {esb}\n{}\n",
            text(&user)
        )
    );
    assert_eq!(
        run(&format!("make {b} {esb}"), &text(&user)),
        format!(
            "balise make 1\nbits 210\nshort sb {b} esb {esb}\n{}\n",
            text(&telegram)
        )
    );
}

/// Well-formed and not proper: read refuses the window and the search does not
/// find it, and read-well-formed reads it; make makes the telegram again.
#[test]
fn not_proper() {
    for telegram in well_formed_not_proper() {
        let format = Format::of_telegram(telegram.len()).unwrap();
        let refusal = check(&telegram).unwrap_err();
        let (b, esb) = (b_of(&telegram, format), esb_of(&telegram, format));
        let user = text(&user_bits_of(&telegram, format).unwrap());
        let window = cut(&telegram, 7, format.window_bits(), false);
        let (bits, window) = (window.len(), text(&window));
        assert_eq!(
            run("read", &window),
            format!("balise read 1\nbits {bits}\n{refusal}\n")
        );
        assert_eq!(
            run("capture", &window),
            format!("balise capture 1\nbits {bits}\nnone\n")
        );
        assert_eq!(
            run("read-well-formed", &window),
            format!(
                "balise read-well-formed 1\nbits {bits}\n{} turn 7 sb {b} upright esb {esb}\n{user}\n",
                format.name(),
            )
        );
        assert_eq!(
            run(&format!("make {b} {esb}"), &user),
            format!(
                "balise make 1\nbits {}\n{} sb {b} esb {esb}\n{}\n",
                format.user_bits(),
                format.name(),
                text(&telegram)
            )
        );
    }
}

/// The arguments of make, B first, are tested before the text. What comes after
/// them is not looked at.
#[test]
fn arguments_of_make() {
    let bad = |which: &str| {
        [
            String::from("balise make 1\nbad\n"),
            format!("balise: the {which}, one to nine digits\n"),
        ]
    };
    let no_numbers = [
        "",
        "-1",
        "+1",
        "1x",
        "x1",
        "1.0",
        "0x1",
        "1\n",
        "1234567890",
        "\u{661}",
    ];
    for word in no_numbers {
        for other in no_numbers.into_iter().chain(["5"]) {
            let first = written(&format!("make {word} {other}"), "x");
            assert_eq!(first, bad("first argument must be B"));
        }
        let second = written(&format!("make 18 {word}"), "x");
        assert_eq!(second, bad("second argument must be esb"));
    }
    assert_eq!(written("make", "x"), bad("first argument must be B"));
    assert_eq!(written("make 18", "x"), bad("second argument must be esb"));
    let zeros = text(&[0; 210]);
    let mut telegram = [0; 341];
    let encoded = encode_skipping(&[0; 210], &mut telegram).unwrap();
    let (b, esb) = (encoded.b, encoded.esb);
    let answer = run(&format!("make {b} {esb}"), &zeros);
    for words in [
        format!("make {b:09} {esb:09}"),
        format!("make {b:03} {esb:05} x"),
        format!("make {b} {esb} -1 "),
    ] {
        assert_eq!(run(&words, &zeros), answer);
    }
}

/// The first hundred pairs, then whether there are more; a block that is refused is
/// bad (document 02, No. 9).
#[test]
fn pairs_of_a_block() {
    let mut random = Random::new(170);
    let few = |place| with_few_pairs(place).unwrap();
    for (block, more) in [
        (random.bits(210), true),
        (random.bits(830), true),
        (few(ONE_MORE), true),
        (few(A_HUNDRED), false),
        (few(808), false),
        (block_without_a_pair(), false),
    ] {
        let list: Vec<_> = pairs_skipping(&block).unwrap().collect();
        assert_eq!(list.len() > 100, more);
        let listed = list.iter().take(100);
        let mut expected: String = listed
            .map(|pair| format!("{} {}\n", pair.b, pair.esb))
            .collect();
        expected += if more { "more\n" } else { "end\n" };
        assert_eq!(run("pairs", &text(&block)), expected);
    }
    assert_eq!(pairs_skipping(&few(A_HUNDRED)).unwrap().count(), 100);
    assert_eq!(pairs_skipping(&few(ONE_MORE)).unwrap().count(), 101);
    for bits in [0, 1, 209, 211, 829] {
        let why = format!("balise: a block has 830 or 210 bits, and this has {bits}\n");
        let refused = written("pairs", &"0".repeat(bits));
        assert_eq!(refused, [String::from("bad\n"), why]);
    }
}
