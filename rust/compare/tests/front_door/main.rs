//! The script `balise`: which input it answers for, its exit status and what it
//! writes, and when it builds. The programs that it runs are the real ones; the
//! toolchain is one of the tests' own, so that a build takes no time.

mod answers;
mod builds;
mod inputs;
mod make;
mod pairs;
mod scratch;

use compare::documents::document;
use second::appendices::well_formed_not_proper;
use second::bits::text;
use second::telegram::cut;

/// A telegram fit to burn, as a text.
fn proper() -> String {
    example("check_telegram")
}

/// What a program is run on by the toolchain.
fn example(program: &str) -> String {
    document(&format!("crates/{program}/stdin"))
}

/// A window of a long telegram that is well-formed and that condition 2 bars, as
/// a text.
fn not_proper() -> String {
    text(&cut(&well_formed_not_proper()[0], 0, 1100, false))
}

/// The command make with the numbers of its stored example.
const MAKE: &str = "make 18 119";

const PROPER: &str = "balise check 1\nbits 1023\nlong proper\n";
const BAD: &str = "balise check 1\nbad\n";
