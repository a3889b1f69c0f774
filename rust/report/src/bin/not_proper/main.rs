//! Prints data/well-formed-not-proper.txt, a telegram a line: well-formed ones
//! of which one of conditions 2, 3 and 4 fails, and only just, and some of which
//! several do. The text is the same at every run.

mod equations;
mod search;
mod subspaces;

use equations::{equation, Bits};
use search::{Places, Search, Wish};
use second::bits::text;
use second::conditions::{
    failing_conditions, off_step_limit, off_step_run, period_distance, thinned_run, Course,
    THINNED_RUN,
};
use second::format::{Format, FORMATS};
use second::random::Random;
use second::refusal::{Refusal, OFF_STEP, PERIOD, THINNED};
use second::rings::other_steps_hold;
use second::words::WORD_BITS;

fn main() {
    let mut search = Search::new(2);
    for format in FORMATS {
        for p in 1..=10 {
            print(&off_step(&mut search, format, p));
        }
    }
    for k in [0, 1, -1, 2, -2, 3, -3] {
        for seam in [false, true] {
            print(&repeating(&mut search, k, seam));
        }
    }
    for format in FORMATS {
        // each alignment once, the first one twice
        for at in 0..=WORD_BITS {
            let (k, alignment) = (1 + at as u32 % 4, at % WORD_BITS);
            print(&thinned(&mut search, format, k, alignment));
        }
    }
    for (format, failing) in [
        (Format::Long, &[OFF_STEP, PERIOD][..]),
        (Format::Long, &[OFF_STEP, THINNED]),
        (Format::Long, &[PERIOD, THINNED]),
        (Format::Long, &[OFF_STEP, PERIOD, THINNED]),
        (Format::Short, &[OFF_STEP, THINNED]),
    ] {
        for _ in 0..2 {
            print(&several(&mut search, format, failing));
        }
    }
}

fn print(telegram: &[u8]) {
    println!("{}", text(telegram));
}

/// Are these the refusals of the conditions that fail?
fn fail(telegram: &[u8], format: Format, refusals: &[Refusal]) -> bool {
    failing_conditions(telegram, format).eq(refusals.iter().copied())
}

/// Condition 2 alone: one run at step p, one word over the limit, that does not
/// cross the seam from b0 to b(n-1).
fn off_step(search: &mut Search, format: Format, p: usize) -> Vec<u8> {
    let run = off_step_limit(p, format) + 1;
    let first = search.random.below(format.words() - run);
    let word = |index| std::array::from_fn(|i| p + WORD_BITS * index + i);
    let wish = Wish {
        format,
        words: (first..first + run).map(word).collect(),
        equations: Vec::new(),
    };
    search.telegram(&wish, |telegram| {
        [Course::Strip, Course::Ring].map(|course| off_step_run(telegram, p, course)) == [run; 2]
            && other_steps_hold(telegram, format, p)
            && fail(telegram, format, &[OFF_STEP])
    })
}

/// The bits that condition 3 compares.
const COMPARED: usize = 22;

/// The least number of places in which condition 3 lets them differ.
fn least(k: isize) -> usize {
    if k == 0 {
        3
    } else {
        2
    }
}

/// The places, in a long telegram, of the 22 bits from b(i-1) on.
fn compared(i: isize) -> [usize; COMPARED] {
    let n = Format::Long.telegram_bits();
    let first = (-i).rem_euclid(n as isize) as usize;
    std::array::from_fn(|j| (first + j) % n)
}

/// The equations that the 22 bits from b(i-1) and from b(i-341-k-1) differ in
/// one place less than they must.
fn too_near_equations(random: &mut Random, i: isize, k: isize) -> Vec<Bits> {
    let differing = random.places(least(k) - 1, COMPARED);
    let pairs = compared(i).into_iter().zip(compared(i - 341 - k));
    pairs
        .enumerate()
        .map(|(j, (one, other))| equation([one, other], differing.contains(&j)))
        .collect()
}

/// For which i and k the 22 bits differ in fewer places than they must.
fn too_near(telegram: &[u8]) -> Vec<(isize, isize)> {
    (0..telegram.len() as isize)
        .step_by(WORD_BITS)
        .flat_map(|i| (-3..=3).map(move |k| (i, k)))
        .filter(|&(i, k)| period_distance(telegram, i, k) < least(k))
        .collect()
}

/// An i for which one of the two lists that are compared crosses the seam, or
/// none does.
fn random_i(random: &mut Random, k: isize, seam: bool) -> isize {
    let crosses = |i| !compared(i).is_sorted();
    loop {
        let i = (WORD_BITS * random.below(Format::Long.words())) as isize;
        if (crosses(i) || crosses(i - 341 - k)) == seam {
            return i;
        }
    }
}

/// Condition 3 alone, for a single i and this k.
fn repeating(search: &mut Search, k: isize, seam: bool) -> Vec<u8> {
    let format = Format::Long;
    let i = random_i(&mut search.random, k, seam);
    let wish = Wish {
        format,
        words: Vec::new(),
        equations: too_near_equations(&mut search.random, i, k),
    };
    search.telegram(&wish, |telegram| {
        fail(telegram, format, &[PERIOD]) && too_near(telegram) == [(i, k)]
    })
}

/// The words of a run one over the limit in the ring of the telegram thinned 2^k
/// times, at an alignment. In a short telegram they are the whole ring.
fn thinned_words(random: &mut Random, format: Format, k: u32, alignment: usize) -> Vec<Places> {
    let n = format.telegram_bits();
    // v(j) = b(j * 2^k), and v(n-1) stands first
    let place = |at: usize| n - 1 - ((n - 1 - at % n) << k) % n;
    let word = |index| std::array::from_fn(|i| place(alignment + WORD_BITS * index + i));
    let first = random.below(format.words());
    (first..=first + THINNED_RUN).map(word).collect()
}

/// Condition 4 alone, by such a run.
fn thinned(search: &mut Search, format: Format, k: u32, alignment: usize) -> Vec<u8> {
    let wish = Wish {
        format,
        words: thinned_words(&mut search.random, format, k, alignment),
        equations: Vec::new(),
    };
    search.telegram(&wish, |telegram| {
        thinned_run(telegram, k, alignment) == THINNED_RUN + 1 && fail(telegram, format, &[THINNED])
    })
}

/// Several conditions, those with these refusals. Condition 2 fails by chance.
fn several(search: &mut Search, format: Format, failing: &[Refusal]) -> Vec<u8> {
    let random = &mut search.random;
    let (mut words, mut equations) = (Vec::new(), Vec::new());
    if failing.contains(&THINNED) {
        words = thinned_words(random, format, 1, 0);
    }
    if failing.contains(&PERIOD) {
        let i = random_i(random, 0, false);
        equations = too_near_equations(random, i, 0);
    }
    let wish = Wish {
        format,
        words,
        equations,
    };
    search.telegram(&wish, |telegram| fail(telegram, format, failing))
}
