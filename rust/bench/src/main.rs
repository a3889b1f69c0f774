//! Prints docs/PERFORMANCE.md. An argument names a file with what the older kit's `rt prove`
//! printed, for the seconds of the check.

use std::process::exit;
use std::{env, fs};

/// What the older kit's `rt prove` printed, if an argument names the file that has it.
fn proved_log() -> Option<String> {
    let path = env::args().nth(1)?;
    match fs::read_to_string(&path) {
        Ok(log) => Some(log),
        Err(error) => {
            eprintln!("bench: {path}: {error}");
            exit(2);
        }
    }
}

fn main() {
    bench::figures(proved_log().as_deref());
}
