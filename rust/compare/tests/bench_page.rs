//! The examples of docs/BENCH.md: each command of its console blocks is run at
//! the repository's root, and writes what the page shows. README.md's first
//! command writes a telegram. The file examples/bad-words.txt is made again.

use compare::documents::document;
use compare::programs::{repository, run, stdout, tool};
use compare::telegrams::with_word;
use second::bits::{of_text, text};
use second::telegram;
use second::words::{of_bits, wrong, WORD_BITS};
use second::{Format, Kind, Reading};
use std::fs;
use std::process::{Command, Stdio};

/// A command of a console block, and the lines shown below it.
struct Example {
    command: String,
    output: String,
}

/// The texts of a page's blocks that are marked so.
fn blocks<'a>(page: &'a str, mark: &str) -> Vec<&'a str> {
    let begin = format!("\n```{mark}\n");
    page.split(&begin)
        .skip(1)
        .map(|rest| rest.split_once("\n```\n").expect("an end").0)
        .collect()
}

/// The examples of a page: the lines after `$ ` in its console blocks.
fn examples(page: &str) -> Vec<Example> {
    let mut examples: Vec<Example> = Vec::new();
    for line in blocks(page, "console")
        .iter()
        .flat_map(|block| block.lines())
    {
        if let Some(command) = line.strip_prefix("$ ") {
            examples.push(Example {
                command: command.to_string(),
                output: String::new(),
            });
        } else {
            let shown = &mut examples.last_mut().expect("a command first").output;
            shown.push_str(line);
            shown.push('\n');
        }
    }
    examples
}

/// What a command writes to standard output, at the repository's root; none
/// where it fails.
fn written(command: &str) -> Option<String> {
    let mut shell = Command::new("sh");
    shell.args(["-c", command]).current_dir(repository());
    let ran = run(&mut shell, Stdio::inherit(), b"");
    ran.status.success().then(|| stdout(&ran))
}

/// Removes the files of target/ that a command names: none of an earlier run
/// is to stand in for one that it makes.
fn remove_files_named(command: &str) {
    for word in command.split_whitespace() {
        if let Some(name) = word.strip_prefix("target/") {
            let _ = fs::remove_file(repository().join("target").join(name.trim_end_matches(';')));
        }
    }
}

/// Commands with Python are run where there is one.
#[test]
fn the_pages_examples_write_what_it_shows() {
    let page = document("docs/BENCH.md");
    let examples = examples(&page);
    assert!(examples.len() > 20);
    for example in examples.iter().filter(|e| !e.command.starts_with("cc ")) {
        remove_files_named(&example.command);
    }
    remove_files_named("target/libbalise.so");
    for program in blocks(&page, "python") {
        let comment = program.strip_prefix("# ").expect("a comment first");
        let (name, _) = comment.split_once(':').expect("a name");
        fs::write(repository().join(name), program).expect("a program");
    }
    let python = tool("python3").is_some();
    for Example { command, output } in examples {
        if python || !command.starts_with("python3 ") {
            assert_eq!(written(&command), Some(output), "{command}");
        } else {
            println!("skipped: {command}");
        }
    }
}

#[test]
fn the_readmes_first_command_writes_a_telegram() {
    let page = document("README.md");
    let first = page.lines().nth(2).expect("a third line");
    let command = first.split('`').nth(1).expect("a command");
    assert!(command.starts_with("./balise encode "));
    let answer = written(command).expect("an answer");
    assert_eq!(answer.lines().nth(3).expect("line four").len(), 1023);
}

/// Three times the telegram of the window in examples/window.txt, each with another
/// word in the place of one of its own, and the check bits of that: a word of zeros,
/// one of the group of 20, and its own word with one bit changed. Then what its block
/// gives with an esb that is one less.
#[test]
fn the_file_of_bad_words() {
    let window = of_text(document("examples/window.txt").as_bytes()).expect("bits");
    let mut user = [0; Format::Short.user_bits()];
    let Reading { format, b, esb, .. } = second::read(&window, &mut user).expect("a reading");
    let telegram = telegram::make(&user, b, esb, format);
    let own = of_bits(&telegram[13 * WORD_BITS..][..WORD_BITS]);
    let changed = (0..WORD_BITS)
        .map(|bit| own ^ 1 << bit)
        .find(|&word| wrong(word) == Some(Kind::Other))
        .expect("a word in neither group");
    let telegrams = [
        with_word(&telegram, format, 3, 0),
        with_word(&telegram, format, 8, 0b01010101010),
        with_word(&telegram, format, 13, changed),
        telegram::make(&user, b, esb - 1, format),
    ];
    let lines = telegrams.map(|bits| text(&bits) + "\n").concat();
    assert_eq!(document("examples/bad-words.txt"), lines);
}
