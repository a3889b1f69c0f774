//! The repository's programs, and commands of the machine.

use balise::{CAPTURE_LIMIT, MAX_TELEGRAM_BITS, MAX_USER_BITS, MAX_WINDOW_BITS};
use std::io::Write;
use std::path::{Path, PathBuf};
use std::process::{Command, Output, Stdio};
use std::{env, fs};

/// A program of the repository.
#[derive(Clone, Copy, Debug)]
pub struct Program {
    pub name: &'static str,
    /// The word by which the second program does the same.
    pub word: &'static str,
    /// How many bits it takes.
    pub limit: usize,
}

const fn program(name: &'static str, word: &'static str, limit: usize) -> Program {
    Program { name, word, limit }
}

pub const PROGRAMS: [Program; 7] = [
    program("encode_block", "encode", MAX_USER_BITS),
    program("check_telegram", "check", MAX_TELEGRAM_BITS),
    program("read_window", "read", MAX_WINDOW_BITS),
    program("read_well_formed", "read-well-formed", MAX_WINDOW_BITS),
    program("search_capture", "capture", CAPTURE_LIMIT),
    program("make_telegram", "make", MAX_USER_BITS),
    program("list_pairs", LIST, MAX_USER_BITS),
];

/// The word of the program whose answers have no heading.
const LIST: &str = "pairs";

impl Program {
    /// The first line of its answers, if they have one.
    pub fn heading(&self) -> String {
        match self.word {
            LIST => String::new(),
            word => format!("balise {word} 1\n"),
        }
    }

    /// The arguments of its stored example, a line each; most programs take none.
    pub fn arguments(&self) -> Vec<String> {
        let path = repository().join("crates").join(self.name).join("args");
        let text = fs::read_to_string(path).unwrap_or_default();
        text.lines().map(String::from).collect()
    }
}

/// The repository's root.
pub fn repository() -> PathBuf {
    Path::new(env!("CARGO_MANIFEST_DIR")).join("../..")
}

/// The path of a command, if there is one.
pub fn tool(name: &str) -> Option<PathBuf> {
    env::split_paths(&env::var_os("PATH")?)
        .map(|folder| folder.join(name))
        .find(|path| path.is_file())
}

/// Runs a command that gets its input from here, or from a pipe with these
/// bytes.
pub fn run(command: &mut Command, from: Stdio, input: &[u8]) -> Output {
    let mut child = command
        .stdin(from)
        .stdout(Stdio::piped())
        .stderr(Stdio::piped())
        .spawn()
        .unwrap_or_else(|error| panic!("{}: {error}", command.get_program().display()));
    if let Some(mut pipe) = child.stdin.take() {
        // what has read enough may be gone before all is written
        let _ = pipe.write_all(input);
    }
    child.wait_with_output().expect("an output")
}

pub fn stdout(ran: &Output) -> String {
    String::from_utf8(ran.stdout.clone()).expect("text")
}

pub fn stderr(ran: &Output) -> String {
    String::from_utf8(ran.stderr.clone()).expect("text")
}
