//! The seconds of the check, from what the older kit's `rt prove` printed.

/// Name and seconds of a line `rt: NAME proved (N s)`.
fn proved(line: &str) -> Option<(&str, &str)> {
    let (name, rest) = line.strip_prefix("rt: ")?.split_once(" proved (")?;
    Some((name, rest.strip_suffix(" s)")?))
}

pub fn check(log: &str) {
    println!();
    println!("## The check");
    println!();
    println!(
        "Seconds by crate in a run of `rt prove`, two at a time on two cores. In the gate each"
    );
    println!("must-fail edit costs about as much as its crate.");
    println!();
    println!("| crate | seconds |");
    println!("|---|---|");
    for (name, seconds) in log.lines().filter_map(proved) {
        println!("| {name} | {seconds} |");
    }
}
