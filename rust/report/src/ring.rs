//! Findings about the telegrams that only the ring refuses.

use second::appendices::only_the_ring_refuses;
use second::check;
use second::conditions::{
    condition_3, condition_4, off_step, off_step_limit, off_step_run, Course,
};
use second::format::{Format, FORMATS};
use second::refusal::OFF_STEP;
use second::telegram::well_formed;

pub fn lines() -> Vec<String> {
    FORMATS.into_iter().map(line).collect()
}

fn line(format: Format) -> String {
    let mut kept = only_the_ring_refuses();
    kept.retain(|telegram| telegram.len() == format.telegram_bits());
    let count = |test: &dyn Fn(&[u8]) -> bool| kept.iter().filter(|t| test(t)).count();
    let over: Vec<String> = kept
        .iter()
        .map(|telegram| over(telegram, format).join(" and "))
        .collect();
    format!(
        "{}: {} telegrams, refused with 10: {}, proper on the strip, as document 01 had it: {}; runs over the limit: {}",
        format.name(),
        kept.len(),
        count(&|t| check(t) == Err(OFF_STEP)),
        count(&|t| well_formed(t, format)
            && off_step(t, format, Course::Strip)
            && condition_3(t, format)
            && condition_4(t)),
        over.join(", ")
    )
}

/// The runs of a telegram that are over the limit round the ring.
pub fn over(telegram: &[u8], format: Format) -> Vec<String> {
    (1..=10)
        .map(|p| (p, off_step_run(telegram, p, Course::Ring)))
        .filter(|&(p, run)| run > off_step_limit(p, format))
        .map(|(p, run)| format!("{run} at p {p}"))
        .collect()
}
