//! Findings about the kept telegrams that are well-formed and not proper.

use crate::ring;
use second::appendices::well_formed_not_proper;
use second::conditions::{failing_conditions, period_distance, thinned_run, THINNED_RUN};
use second::format::{Format, FORMATS};
use second::refusal::{self, Refusal};
use second::telegram::well_formed;

/// What is over a limit, or short of one, in a telegram.
type Faults = fn(&[u8], Format) -> Vec<String>;

pub fn lines() -> Vec<String> {
    let off_step = |format| line(format, refusal::OFF_STEP, "runs over the limit", ring::over);
    let thinned = |format| line(format, refusal::THINNED, "runs over the limit", thinned);
    let mut lines = Vec::from(FORMATS.map(off_step));
    // a short telegram meets condition 3
    lines.push(line(
        Format::Long,
        refusal::PERIOD,
        "differing places",
        near,
    ));
    lines.extend(FORMATS.map(thinned));
    lines.push(several());
    lines
}

/// The telegrams of which several conditions fail.
fn several() -> String {
    let failing: Vec<String> = well_formed_not_proper()
        .iter()
        .filter_map(|telegram| {
            let format = Format::of_telegram(telegram.len())?;
            let numbers: Vec<String> = failing_conditions(telegram, format)
                .map(|refusal| refusal.number().to_string())
                .collect();
            let line = format!("{} {}", format.name(), numbers.join(" "));
            (numbers.len() > 1).then_some(line)
        })
        .collect();
    format!("several conditions fail: {}", failing.join(", "))
}

/// The telegrams of a format that are well-formed and of which only the
/// condition with this refusal fails.
fn line(format: Format, refusal: Refusal, what: &str, faults: Faults) -> String {
    let mut kept = well_formed_not_proper();
    kept.retain(|telegram| {
        telegram.len() == format.telegram_bits()
            && well_formed(telegram, format)
            && failing_conditions(telegram, format).eq([refusal])
    });
    let faults: Vec<String> = kept
        .iter()
        .map(|telegram| faults(telegram, format).join(" and "))
        .collect();
    format!(
        "{}, refused with {} alone: {} telegrams; {what}: {}",
        format.name(),
        refusal.number(),
        kept.len(),
        faults.join(", ")
    )
}

/// The comparisons of condition 3 that find too few places.
fn near(telegram: &[u8], format: Format) -> Vec<String> {
    (0..format.words() as isize)
        .flat_map(|word| (-3..=3).map(move |k| (11 * word, k)))
        .map(|(i, k)| (i, k, period_distance(telegram, i, k)))
        .filter(|&(_, k, places)| places < if k == 0 { 3 } else { 2 })
        .map(|(i, k, places)| format!("{places} at i {i} k {k}"))
        .collect()
}

/// The runs of the thinned telegram that are over the limit.
fn thinned(telegram: &[u8], _: Format) -> Vec<String> {
    (1..=4)
        .flat_map(|k| (0..11).map(move |alignment| (k, alignment)))
        .map(|(k, alignment)| (k, alignment, thinned_run(telegram, k, alignment)))
        .filter(|&(.., run)| run > THINNED_RUN)
        .map(|(k, alignment, run)| format!("{run} at k {k} alignment {alignment}"))
        .collect()
}
