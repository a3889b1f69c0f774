//! Takes the three appendices out of the text of source document 000 and
//! writes them as plain data files: `extract TEXT FOLDER`.

use std::path::Path;
use std::{env, fs, process};

fn main() {
    let arguments: Vec<String> = env::args().collect();
    let [_, text, folder] = arguments.as_slice() else {
        eprintln!("usage: extract TEXT FOLDER");
        process::exit(2);
    };
    if let Err(error) = extract(Path::new(text), Path::new(folder)) {
        eprintln!("{error}");
        process::exit(1);
    }
}

fn extract(text: &Path, folder: &Path) -> std::io::Result<()> {
    let text = fs::read_to_string(text)?;
    let a = after(&text, "附录 A:");
    let b = after(&text, "附录 B：");
    let c = after(&text, "附录 C:");
    fs::write(folder.join("appendix-a.txt"), appendix_a(a))?;
    fs::write(folder.join("appendix-b.txt"), appendix_b(b))?;
    fs::write(folder.join("appendix-c.txt"), appendix_c(c))
}

/// The text after the line with this heading, up to the next appendix.
fn after<'a>(text: &'a str, heading: &str) -> &'a str {
    let start = text.find(heading).expect("the heading is in the text");
    let rest = &text[start..];
    let rest = &rest[rest.find('\n').expect("a line ends") + 1..];
    &rest[..rest.find("\n附录 ").unwrap_or(rest.len())]
}

/// The octal entries, one a line, in the order printed.
fn appendix_a(text: &str) -> String {
    let is_entry = |s: &&str| s.len() == 5 && s.bytes().all(|c| (b'0'..b'8').contains(&c));
    text.split(|c: char| c == ',' || c.is_whitespace())
        .filter(is_entry)
        .map(|entry| format!("{entry}\n"))
        .collect()
}

/// The rows: number, block and telegram, with a tab between.
fn appendix_b(text: &str) -> String {
    let rows: Vec<(&str, &str)> = text
        .lines()
        .filter_map(|line| line.split_once('\t'))
        .filter(|(number, _)| number.parse::<u32>().is_ok())
        .collect();
    let (blocks, telegrams) = rows.split_at(rows.len() / 2);
    blocks
        .iter()
        .zip(telegrams)
        .map(|(block, telegram)| {
            assert_eq!(block.0, telegram.0, "the rows of both lists go together");
            format!("{}\t{}\t{}\n", block.0, block.1.trim(), telegram.1.trim())
        })
        .collect()
}

/// The remainders, one a line, read along the printed rows.
fn appendix_c(text: &str) -> String {
    text.lines()
        .flat_map(|line| line.split('\t'))
        .filter(|s| s.len() == 3 && s.bytes().all(|c| c.is_ascii_hexdigit()))
        .map(|remainder| format!("{remainder}\n"))
        .collect()
}
