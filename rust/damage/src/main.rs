//! Tries every single-bit change of windows of Appendix B's telegrams by both
//! window calls, and writes how many were not refused with 5 or 6 (document 02,
//! No. 8). `--bursts N` also tries N random bursts of each format, `--scattered N` as
//! many scattered changes and `--slips N` as many slips; `--beyond N` writes a table
//! of what is answered beyond the limits of scattered changes and slips, N windows a
//! row; `--seed S` draws others. The exit status is 1 where something within the
//! limits was not refused as is proved, and 2 where an argument is wrong or the text
//! cannot be written.

use damage::report::{report, Options};
use damage::trial::CALLS;
use std::ffi::OsString;
use std::process::ExitCode;
use std::{env, io};

const USAGE: &str =
    "usage: damage [--bursts N] [--scattered N] [--slips N] [--beyond N] [--seed S]";

fn main() -> ExitCode {
    let Some(options) = options(env::args_os().skip(1)) else {
        eprintln!("{USAGE}");
        return ExitCode::from(2);
    };
    match report(&CALLS, options, &mut io::stdout()) {
        Ok(true) => ExitCode::SUCCESS,
        Ok(false) => ExitCode::from(1),
        Err(error) => {
            eprintln!("damage: {error}");
            ExitCode::from(2)
        }
    }
}

/// What the arguments ask for, if none is wrong.
fn options(mut arguments: impl Iterator<Item = OsString>) -> Option<Options> {
    let mut options = Options::default();
    while let Some(name) = arguments.next() {
        let value = arguments.next()?;
        let value = value.to_str()?;
        match name.to_str()? {
            "--bursts" => options.bursts = value.parse().ok()?,
            "--scattered" => options.scattered = value.parse().ok()?,
            "--slips" => options.slips = value.parse().ok()?,
            "--beyond" => options.beyond = value.parse().ok()?,
            "--seed" => options.seed = value.parse().ok()?,
            _ => return None,
        }
    }
    Some(options)
}
