//! The second program on standard input: `second encode`, `check`, `read`,
//! `read-well-formed`, `capture`, `make B ESB` or `pairs`. It reads characters 0 and
//! 1, skipping bytes 10 and 13, and writes what the main programs write (document
//! 01, the capture program; document 02, No. 9, No. 11 and No. 13); of a bad text,
//! an argument of `make` that is no number, or a block of `pairs` that is refused, a
//! line on standard error says what is wrong. `pairs` finds them by dropping
//! scrambling bits, as `encode_skipping` does.

use second::bits::{first_fault, of_text, text, Fault};
use second::format::Format;
use second::{
    check, encode, make, pairs_skipping, read, read_well_formed, search, Reading, Refusal,
    CAPTURE_LIMIT,
};
use std::ffi::OsString;
use std::io::{self, Read, Write};
use std::{env, process};

/// The lines after the second, from the bits.
type Answer = Box<dyn Fn(&[u8]) -> String>;

/// The pairs that `pairs` writes, at most.
const LISTED: usize = 100;

fn main() -> io::Result<()> {
    let mut arguments = env::args_os().skip(1);
    let kind = arguments.next().unwrap_or_default();
    let kind = kind.to_string_lossy();
    let (limit, answer): (usize, Result<Answer, String>) = match &*kind {
        "encode" => (Format::Long.user_bits(), Ok(Box::new(encoded))),
        "check" => (Format::Long.telegram_bits(), Ok(Box::new(checked))),
        "read" => (Format::Long.window_bits(), Ok(Box::new(window_read))),
        "read-well-formed" => (Format::Long.window_bits(), Ok(Box::new(well_formed_read))),
        "capture" => (CAPTURE_LIMIT, Ok(Box::new(captured))),
        "make" => (Format::Long.user_bits(), making(arguments)),
        "pairs" => return write("", input(Format::Long.user_bits()).and_then(listed)),
        _ => {
            eprintln!(
                "usage: second encode | check | read | read-well-formed | capture | make B ESB | pairs"
            );
            process::exit(2);
        }
    };
    let lines = answer.and_then(|answer| {
        let bits = input(limit)?;
        Ok(format!("bits {}\n{}", bits.len(), answer(&bits)))
    });
    write(&format!("balise {kind} 1\n"), lines)
}

/// Writes the heading and the lines, or `bad` in their place and what is wrong.
fn write(heading: &str, lines: Result<String, String>) -> io::Result<()> {
    let lines = lines.unwrap_or_else(|wrong| {
        eprintln!("balise: {wrong}");
        String::from("bad\n")
    });
    io::stdout().write_all(format!("{heading}{lines}").as_bytes())
}

/// The bits of standard input, or what is wrong with it.
fn input(limit: usize) -> Result<Vec<u8>, String> {
    let mut input = Vec::new();
    let read = io::stdin().read_to_end(&mut input);
    match first_fault(&input, limit) {
        Some(Fault::Character { byte, place }) => Err(format!("character {byte} at byte {place}")),
        Some(Fault::Limit) => Err(format!("more than {limit} bits")),
        None => read
            .ok()
            .and_then(|_| of_text(&input))
            .ok_or(String::from("the input cannot be read")),
    }
}

/// The number that an argument of one to nine decimal digits gives.
fn number(argument: Option<OsString>) -> Option<u64> {
    let argument = argument?;
    let digits = argument.as_encoded_bytes();
    let fits = (1..=9).contains(&digits.len()) && digits.iter().all(u8::is_ascii_digit);
    let value = |number, digit: &u8| 10 * number + u64::from(digit - b'0');
    fits.then(|| digits.iter().fold(0, value))
}

/// The answer of `make` for its two arguments, or which of them is no number.
fn making(mut arguments: impl Iterator<Item = OsString>) -> Result<Answer, String> {
    let b = number(arguments.next()).ok_or("the first argument must be B, one to nine digits")?;
    let esb =
        number(arguments.next()).ok_or("the second argument must be esb, one to nine digits")?;
    Ok(Box::new(move |block: &[u8]| made(block, b, esb)))
}

fn encoded(block: &[u8]) -> String {
    let mut output = [0; Format::Long.telegram_bits()];
    match encode(block, &mut output) {
        Ok(e) => format!(
            "{} sb {} esb {} tried {}\n{}\n",
            e.format.name(),
            e.b,
            e.esb,
            e.count,
            text(&output[..e.format.telegram_bits()])
        ),
        Err(refusal) => format!("{refusal}\n"),
    }
}

fn made(block: &[u8], b: u64, esb: u64) -> String {
    let mut output = [0; Format::Long.telegram_bits()];
    match make(block, b, esb, &mut output) {
        Ok(format) => format!(
            "{} sb {b} esb {esb}\n{}\n",
            format.name(),
            text(&output[..format.telegram_bits()])
        ),
        Err(refusal) => format!("{refusal}\n"),
    }
}

/// The first hundred pairs, one a line, and whether there are more (document 02,
/// No. 9), or why the block is refused.
fn listed(block: Vec<u8>) -> Result<String, String> {
    let refused = |_| format!("a block has 830 or 210 bits, and this has {}", block.len());
    let mut pairs = pairs_skipping(&block).map_err(refused)?;
    let listed = pairs.by_ref().take(LISTED);
    let lines: String = listed
        .map(|pair| format!("{} {}\n", pair.b, pair.esb))
        .collect();
    let last = if pairs.next().is_some() {
        "more"
    } else {
        "end"
    };
    Ok(format!("{lines}{last}\n"))
}

fn checked(telegram: &[u8]) -> String {
    match check(telegram) {
        Ok(format) => format!("{} proper\n", format.name()),
        Err(refusal) => format!("{refusal}\n"),
    }
}

/// The turn, B, upright or flipped, and esb of a reading.
fn facts(reading: &Reading) -> String {
    let way = if reading.flipped {
        "flipped"
    } else {
        "upright"
    };
    format!(
        "turn {} sb {} {way} esb {}",
        reading.turn, reading.b, reading.esb
    )
}

fn window_read(window: &[u8]) -> String {
    what_was_read(window, read)
}

fn well_formed_read(window: &[u8]) -> String {
    what_was_read(window, read_well_formed)
}

/// The lines of a window that one of the two calls reads.
fn what_was_read(window: &[u8], read: fn(&[u8], &mut [u8]) -> Result<Reading, Refusal>) -> String {
    let mut output = [0; Format::Long.user_bits()];
    match read(window, &mut output) {
        Ok(r) => format!(
            "{} {}\n{}\n",
            r.format.name(),
            facts(&r),
            text(&output[..r.format.user_bits()])
        ),
        Err(refusal) => format!("{refusal}\n"),
    }
}

fn captured(capture: &[u8]) -> String {
    match search(capture) {
        Ok(found) => format!(
            "{} place {} {}\n{}\n",
            found.reading.format.name(),
            found.place,
            facts(&found.reading),
            text(&found.user)
        ),
        Err(_) => String::from("none\n"),
    }
}
