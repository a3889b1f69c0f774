//! Prints what the appendices of document 000 hold, computed by the second
//! program: `report`. The text is the same at every run. Condition 2 counts
//! round the ring (document 02, No. 5) except where a line says "on the strip".

mod appendix_a;
mod appendix_b;
mod appendix_c;
mod not_proper;
mod ring;
mod search;

fn main() {
    section("Appendix A: the table", &appendix_a::lines());
    section("Appendix B: blocks and telegrams", &appendix_b::lines());
    section("Appendix C: remainders", &appendix_c::lines());
    section("The polynomials", &appendix_c::polynomial_lines());
    section("The search", &search::lines());
    section("Telegrams that only the ring refuses", &ring::lines());
    let lines = not_proper::lines();
    section("Well-formed telegrams that are not proper", &lines);
}

fn section(heading: &str, lines: &[String]) {
    println!("{heading}");
    for line in lines {
        println!("  {line}");
    }
    println!();
}

/// Yes or no.
fn answer(holds: bool) -> &'static str {
    if holds {
        "yes"
    } else {
        "no"
    }
}
