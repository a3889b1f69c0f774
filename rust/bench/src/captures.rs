//! The search of a capture: our quick search against our plain one, against plain Rust
//! with the algorithm of the quick one, and against the second program.

use crate::{microseconds, quick_search};
use second::appendices::well_formed_not_proper;
use second::capture_kinds::with_runs;
use second::conditions::{failing_conditions, thinned_run, THINNED_RUN};
use second::format::{Format, FORMATS};
use second::made::{random_telegrams, with_bits};
use second::random::Random;
use second::telegram::cut;
use second::{refusal, CAPTURE_LIMIT};
use std::hint::black_box;

/// The lengths that are timed.
const LENGTHS: [usize; 7] = [1000, 2000, 4000, CAPTURE_LIMIT, 15_000, 30_000, 60_000];

/// How many captures of a kind there are of a length: so many that no branch predictor
/// learns them.
fn count(length: usize) -> usize {
    (500_000 / length).max(8)
}

/// Proper telegrams of a format, of which captures are made.
const TELEGRAMS: usize = 8;

/// Captures are searched for so many microseconds, twice at least and so often at most.
const SPENT: f64 = 30_000.0;
const LEAST_OFTEN: usize = 2;
const MOST_OFTEN: usize = 400;

/// A source of captures, and a format's telegrams that they are made of.
struct Source {
    random: Random,
    format: Format,
    proper: Vec<Vec<u8>>,
    not_proper: Vec<u8>,
}

impl Source {
    fn new(format: Format) -> Source {
        let mut random = Random::new(3);
        Source {
            proper: random_telegrams(&mut random, format, TELEGRAMS),
            not_proper: not_proper(format),
            random,
            format,
        }
    }

    /// One of the proper telegrams.
    fn telegram(&mut self) -> &[u8] {
        &self.proper[self.random.below(TELEGRAMS)]
    }
}

/// A kind of capture that is timed, of a format whose window it has room for.
struct Timed {
    name: &'static str,
    format: Format,
    make: fn(&mut Source, usize) -> Vec<u8>,
}

impl Timed {
    /// Captures of this kind and length.
    fn captures(&self, sources: &mut [Source; 2], length: usize) -> Vec<Vec<u8>> {
        let source = &mut sources[usize::from(self.format == Format::Short)];
        (0..count(length))
            .map(|_| (self.make)(source, length))
            .collect()
    }
}

fn noise(source: &mut Source, length: usize) -> Vec<u8> {
    source.random.bits(length)
}

fn zeros(_: &mut Source, length: usize) -> Vec<u8> {
    vec![0; length]
}

/// A telegram with other control bits, going round: at every place all but these is in
/// order.
fn other_control(source: &mut Source, length: usize) -> Vec<u8> {
    let format = source.format;
    let telegram = with_bits(source.telegram(), format, format.shaped_bits(), &[1, 0, 1]);
    cut(&telegram, 0, length, false)
}

/// How many thinned rings of a telegram are tested, up to the first with a run that is
/// too long.
fn rings_tested(telegram: &[u8]) -> usize {
    (1..=4)
        .flat_map(|k| (0..11).map(move |alignment| (k, alignment)))
        .take_while(|&(k, alignment)| thinned_run(telegram, k, alignment) <= THINNED_RUN)
        .count()
}

/// A well-formed telegram that condition 4 alone bars: of those that are kept, the one
/// at which condition 4 takes most.
fn not_proper(format: Format) -> Vec<u8> {
    well_formed_not_proper()
        .into_iter()
        .filter(|telegram| telegram.len() == format.telegram_bits())
        .filter(|telegram| failing_conditions(telegram, format).eq([refusal::THINNED]))
        .max_by_key(|telegram| rings_tested(telegram))
        .expect("a telegram")
}

/// That telegram going round: every place takes all tests.
fn condition_4(source: &mut Source, length: usize) -> Vec<u8> {
    cut(&source.not_proper, 0, length, false)
}

/// A proper telegram going round: a window at place 0.
fn proper(source: &mut Source, length: usize) -> Vec<u8> {
    let turn = source.random.below(source.format.telegram_bits());
    cut(source.telegram(), turn, length, false)
}

/// Noise with one window at its end. The bit before it is not the telegram's.
fn at_the_end(source: &mut Source, length: usize) -> Vec<u8> {
    let mut window = proper(source, source.format.window_bits() + 1);
    window[0] ^= 1;
    let front = source.random.bits(length - window.len());
    [front, window].concat()
}

/// Runs of r pairs of a format that agree, with one pair between them that differs:
/// there is a window to be read for every r+1 places, and no capture has more.
fn runs_of(random: &mut Random, format: Format, length: usize) -> Vec<u8> {
    with_runs(random, format, length, |_| format.extra_bits())
}

fn runs(source: &mut Source, length: usize) -> Vec<u8> {
    runs_of(&mut source.random, source.format, length)
}

/// A window at place 0, and after it such runs of the other format.
fn then_runs(source: &mut Source, length: usize) -> Vec<u8> {
    let window = proper(source, source.format.window_bits());
    let other = match source.format {
        Format::Long => Format::Short,
        Format::Short => Format::Long,
    };
    let runs = runs_of(&mut source.random, other, length - window.len());
    [window, runs].concat()
}

const fn timed(
    name: &'static str,
    format: Format,
    make: fn(&mut Source, usize) -> Vec<u8>,
) -> Timed {
    Timed { name, format, make }
}

/// The kinds; noise and zeros are of no format.
const KINDS: [Timed; 14] = [
    timed("noise", Format::Short, noise),
    timed("zeros", Format::Short, zeros),
    timed("long, other control bits", Format::Long, other_control),
    timed("short, other control bits", Format::Short, other_control),
    timed("long, condition 4 fails", Format::Long, condition_4),
    timed("short, condition 4 fails", Format::Short, condition_4),
    timed("long, proper", Format::Long, proper),
    timed("short, proper", Format::Short, proper),
    timed("noise, a long window at the end", Format::Long, at_the_end),
    timed(
        "noise, a short window at the end",
        Format::Short,
        at_the_end,
    ),
    timed("runs of 77 pairs of the long format", Format::Long, runs),
    timed("runs of 121 pairs of the short format", Format::Short, runs),
    timed("a long window, then runs of 121", Format::Long, then_runs),
    timed("a short window, then runs of 77", Format::Short, then_runs),
];

/// A search: the first place, if there is one.
type Search = fn(&[u8]) -> Option<usize>;

/// The least times of some searches in microseconds, on captures that are taken in
/// turn. They must find the same.
fn least<const N: usize>(captures: &[Vec<u8>], searches: [Search; N]) -> [f64; N] {
    let mut least = [f64::INFINITY; N];
    let (mut spent, mut times) = (0.0, 0);
    while times < LEAST_OFTEN || spent < SPENT && times < MOST_OFTEN {
        let capture = &captures[times % captures.len()];
        let mut found = [None; N];
        for i in 0..N {
            // every second time the other way round
            let at = if times % 2 == 0 { i } else { N - 1 - i };
            let time = microseconds(|| found[at] = black_box(searches[at](black_box(capture))));
            least[at] = least[at].min(time);
            spent += time;
        }
        assert!(found.iter().all(|place| *place == found[0]), "{found:?}");
        times += 1;
    }
    least
}

/// The times of ours and another one, and of a third that may take long.
fn three(captures: &[Vec<u8>], ours: Search, other: Search, slow: Search) -> [f64; 3] {
    let [our_time, other_time] = least(captures, [ours, other]);
    let [again, slow_time] = least(captures, [ours, slow]);
    [our_time.min(again), other_time, slow_time]
}

/// A time, with digits after the point where it is short.
fn shown(time: f64) -> String {
    let digits = match time {
        ..10.0 => 2,
        10.0..1000.0 => 1,
        _ => 0,
    };
    format!("{time:.digits$}")
}

/// Prints the first place by both searches of the layers and by plain Rust.
fn first_places(sources: &mut [Source; 2]) {
    println!("The first place of a capture of any length, in microseconds: ours by the search of");
    println!("`balise_search`, plain search by that of `balise_search_plain`, which reads at each");
    println!("place, and Rust in plain Rust with the algorithm of ours, written for speed. All");
    println!("include the wrapper's test that every byte is a bit. Each is the least of up to");
    println!("{MOST_OFTEN} times, {LEAST_OFTEN} at least. All found the same. The aims: at most 0.01 of the plain search's");
    println!(
        "time on zeros, 0.1 on noise, and 1.3 on any capture; and that the time for a bit does"
    );
    println!("not grow.");
    println!();
    println!("Telegrams go round. Other control bits: all but these is in order at every place.");
    println!(
        "Condition 4 fails: every place takes all tests. Proper: there is a window at place 0."
    );
    println!("Runs are of so many pairs of bits, 1,023 or 341 apart, that agree, with one between");
    println!("them that differs: no capture has more windows that ours reads.");
    println!();
    println!("| what | bits | ours | plain search | Rust | ours / plain search | ours / Rust | ours, nanoseconds a bit |");
    println!("|---|---|---|---|---|---|---|---|");
    let searches: [Search; 3] = [
        layers::first_place,
        quick_search::first_place,
        layers::first_place_plain,
    ];
    for kind in &KINDS {
        for length in LENGTHS {
            if length <= kind.format.window_bits() {
                continue;
            }
            let captures = kind.captures(sources, length);
            let [ours, rust, plain] = three(&captures, searches[0], searches[1], searches[2]);
            println!(
                "| {} | {length} | {} | {} | {} | {:.4} | {:.2} | {:.2} |",
                kind.name,
                shown(ours),
                shown(plain),
                shown(rust),
                ours / plain,
                ours / rust,
                1000.0 * ours / length as f64
            );
        }
    }
}

fn by_search(capture: &[u8]) -> Option<usize> {
    balise::search(capture).ok().map(|found| found.place)
}

fn by_search_plain(capture: &[u8]) -> Option<usize> {
    balise::search_plain(capture).ok().map(|found| found.place)
}

fn by_second(capture: &[u8]) -> Option<usize> {
    second::search(capture).ok().map(|found| found.place)
}

/// Prints the calls at the limit.
fn calls(sources: &mut [Source; 2]) {
    println!("The calls on captures of {CAPTURE_LIMIT} bits, in microseconds, the least of as many times.");
    println!();
    println!("| what | ours | plain search | second program | ours / plain search | ours / second program |");
    println!("|---|---|---|---|---|---|");
    for kind in &KINDS {
        let captures = kind.captures(sources, CAPTURE_LIMIT);
        let [ours, plain, second] = three(&captures, by_search, by_search_plain, by_second);
        println!(
            "| {} | {} | {} | {} | {:.4} | {:.5} |",
            kind.name,
            shown(ours),
            shown(plain),
            shown(second),
            ours / plain,
            ours / second
        );
    }
}

/// Prints the test that every byte is a bit.
fn all_bits() {
    /// A test as a search: the place is 0 where it holds.
    fn held(holds: bool) -> Option<usize> {
        holds.then_some(0)
    }
    let tests: [Search; 4] = [
        |bytes| held(layers::all_bits(bytes)),
        |bytes| held(quick_search::all_bits_by_loop(bytes)),
        |bytes| held(quick_search::all_bits_by_all(bytes)),
        |bytes| held(quick_search::all_bits_by_largest(bytes)),
    ];
    println!(
        "The test alone that every byte is a bit, in microseconds, the least of as many times:"
    );
    println!(
        "ours; in Rust a loop that stops at the first byte that is none, `iter().all`, and the"
    );
    println!("largest byte.");
    println!();
    println!("| bytes | ours | loop | all | largest | ours / loop | ours / all | ours / largest |");
    println!("|---|---|---|---|---|---|---|---|");
    let mut random = Random::new(14);
    for length in [Format::Long.window_bits(), CAPTURE_LIMIT, 60_000] {
        let captures: Vec<Vec<u8>> = (0..count(length)).map(|_| random.bits(length)).collect();
        let [ours, by_loop, by_all, by_largest] = least(&captures, tests);
        println!(
            "| {length} | {ours:.3} | {by_loop:.3} | {by_all:.3} | {by_largest:.3} | {:.2} | {:.2} | {:.2} |",
            ours / by_loop,
            ours / by_all,
            ours / by_largest
        );
    }
}

pub fn captures() {
    let mut sources = FORMATS.map(Source::new);
    println!();
    println!("## Captures");
    println!();
    first_places(&mut sources);
    println!();
    calls(&mut sources);
    println!();
    all_bits();
}
