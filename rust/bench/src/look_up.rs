//! The lookup of a word (document 02, No. 3 and, of one that is not in the table,
//! No. 13) against walks of the table from the front.

use crate::{median, microseconds, REPETITIONS, SETS};
use second::random::Random;
use second::words::{self, ENTRIES, WORD_BITS};
use second::Kind;
use std::hint::black_box;
use std::sync::LazyLock;

/// The words of eleven bits.
pub const WORDS: usize = 1 << WORD_BITS;

/// What a lookup of the number alone answers for a word that is not in the table.
pub const NO_NUMBER: u16 = ENTRIES as u16;

/// Entries that a walk compares at a time.
const AT_A_TIME: usize = 64;

/// What the second program answers for a word, as our lookup gives it.
pub fn expected(word: u16) -> u16 {
    match words::look_up(word) {
        Ok(number) => number,
        Err(Kind::Group250) => NO_NUMBER + 250,
        Err(Kind::Group20) => NO_NUMBER + 20,
        Err(Kind::Other) => NO_NUMBER,
    }
}

/// The table, as the walks go over it, and the answers for the words that it does
/// not have.
pub struct Table {
    entries: [u16; ENTRIES],
    absent: [u16; WORDS],
}

/// The second program's table.
pub static TABLE: LazyLock<Table> = LazyLock::new(|| Table {
    entries: words::table().try_into().expect("1,024 entries"),
    absent: std::array::from_fn(|word| expected(word as u16).max(NO_NUMBER)),
});

impl Table {
    /// What a walk answers that does not meet the word, with the kind or without:
    /// one load. No walk ends by it sooner, since that would leave out entries.
    fn without<const KIND: bool>(&self, word: u16) -> u16 {
        match self.absent.get(usize::from(word)) {
            Some(&answer) if KIND => answer,
            _ => NO_NUMBER,
        }
    }
}

/// A walk from the front that looks at every entry before the word.
pub struct Walk {
    pub name: &'static str,
    /// The number of a word, or what our lookup says of one that is not met.
    pub answer: fn(&Table, u16) -> u16,
    /// The number alone.
    pub number: fn(&Table, u16) -> u16,
}

/// None is inlined, as ours is not.
pub const WALKS: [Walk; 3] = [
    Walk {
        name: "an entry at a time, to the word",
        answer: to_the_word::<true>,
        number: to_the_word::<false>,
    },
    Walk {
        name: "an entry at a time, to the word or one above it",
        answer: to_the_word_or_above::<true>,
        number: to_the_word_or_above::<false>,
    },
    Walk {
        name: "64 entries at a time, to those with the word",
        answer: to_those_with_the_word::<true>,
        number: to_those_with_the_word::<false>,
    },
];

#[inline(never)]
fn to_the_word<const KIND: bool>(table: &Table, word: u16) -> u16 {
    match table.entries.iter().position(|&entry| entry == word) {
        Some(place) => place as u16,
        None => table.without::<KIND>(word),
    }
}

/// The table rises, so that no word stands after one above it. With both answers
/// at hand the compiler takes one without a branch.
#[inline(never)]
fn to_the_word_or_above<const KIND: bool>(table: &Table, word: u16) -> u16 {
    let without = table.without::<KIND>(word);
    match table.entries.iter().position(|&entry| entry >= word) {
        Some(place) if table.entries[place] == word => place as u16,
        _ => without,
    }
}

/// Without a branch for each entry, so that the compiler compares many in one
/// instruction. The word's place among the 64 is how many of them are below it.
#[inline(never)]
fn to_those_with_the_word<const KIND: bool>(table: &Table, word: u16) -> u16 {
    for (i, entries) in table.entries.chunks_exact(AT_A_TIME).enumerate() {
        let found = entries
            .iter()
            .fold(false, |found, &entry| found | (entry == word));
        if found {
            let below: u16 = entries.iter().map(|&entry| u16::from(entry < word)).sum();
            return (i * AT_A_TIME) as u16 + below;
        }
    }
    table.without::<KIND>(word)
}

/// What a row says of a walk that gives the number alone, below the other.
pub const NUMBER_ALONE: &str = "the same, the number alone";

/// What a lookup costs at least: a call.
extern "C" fn same(word: u16) -> u16 {
    word
}

/// The words in some order, what the second program answers, and the numbers
/// alone.
struct Order {
    words: Vec<u16>,
    answers: Vec<u16>,
    numbers: Vec<u16>,
}

impl Order {
    fn new(words: Vec<u16>) -> Order {
        let answers: Vec<u16> = words.iter().map(|&word| expected(word)).collect();
        let numbers = answers.iter().map(|&a| a.min(NO_NUMBER)).collect();
        Order {
            words,
            answers,
            numbers,
        }
    }

    /// Looks up all words; gives the nanoseconds that a word took, and the
    /// answers.
    fn pass(&self, look_up: impl Fn(u16) -> u16) -> (f64, [u16; WORDS]) {
        let mut answers = [0; WORDS];
        let words = black_box(&self.words);
        let time = microseconds(|| {
            for (&word, answer) in words.iter().zip(&mut answers) {
                *answer = look_up(word);
            }
            black_box(&answers);
        });
        (1000.0 * time / WORDS as f64, answers)
    }

    /// The same, with the answers compared.
    fn compared_pass(&self, look_up: impl Fn(u16) -> u16, expected: &[u16]) -> f64 {
        let (time, answers) = self.pass(look_up);
        assert!(answers[..] == *expected, "another answer for a word");
        time
    }
}

fn in_order() -> Vec<Order> {
    vec![Order::new((0..WORDS as u16).collect())]
}

fn in_random_orders() -> Vec<Order> {
    let mut random = Random::new(3);
    let mut order = || {
        let places = random.places(WORDS, WORDS);
        Order::new(places.iter().map(|&word| word as u16).collect())
    };
    (0..SETS).map(|_| order()).collect()
}

/// Medians of a call, of ours and of each walk, with the kind and the number alone.
struct Times {
    call: f64,
    ours: f64,
    walks: [f64; WALKS.len()],
    numbers: [f64; WALKS.len()],
}

/// Times them in turn, each repetition with the next of the orders.
fn times(orders: &[Order]) -> Times {
    let (mut call, mut ours) = (Vec::new(), Vec::new());
    let mut walks: [Vec<f64>; WALKS.len()] = Default::default();
    let mut numbers = walks.clone();
    let same = black_box(same as extern "C" fn(u16) -> u16);
    let table = black_box(&*TABLE);
    for order in orders.iter().cycle().take(REPETITIONS) {
        call.push(order.pass(|word| same(word)).0);
        ours.push(order.compared_pass(layers::look_up, &order.answers));
        for (i, walk) in WALKS.iter().enumerate() {
            let answer = |word| (walk.answer)(table, word);
            walks[i].push(order.compared_pass(answer, &order.answers));
            let number = |word| (walk.number)(table, word);
            numbers[i].push(order.compared_pass(number, &order.numbers));
        }
    }
    Times {
        call: median(call),
        ours: median(ours),
        walks: walks.map(median),
        numbers: numbers.map(median),
    }
}

/// Times the lookup, with the answers compared, and prints the ratios.
pub fn look_up() {
    let (ordered, random) = (times(&in_order()), times(&in_random_orders()));
    println!(
        "All {WORDS} words, by ours and by walks of the table from the front in plain Rust, in"
    );
    println!("turn: from 0 up, and in {SETS} random orders. Nanoseconds a word, medians of {REPETITIONS}");
    println!("repetitions. Ours and the walks answer the number or, of a word that is not in the");
    println!("table, its kind; below each walk stands the same one that gives the number alone.");
    println!(
        "Every answer was that of the second program. The crossing into the library, a call for"
    );
    println!("each word, is in our figure; a walk is a call too. Asked: at most 0.25 of a walk's");
    println!("time; the aim: at most 0.05.");
    println!();
    println!("| what | from 0 up | ours / walk | random order | ours / walk |");
    println!("|---|---|---|---|---|");
    let alone = |name, ordered, random| println!("| {name} | {ordered:.2} | | {random:.2} | |");
    alone(
        "a call that only gives its word back",
        ordered.call,
        random.call,
    );
    alone("ours", ordered.ours, random.ours);
    let walk = |name: &str, one: f64, other: f64| {
        let (ratio, other_ratio) = (ordered.ours / one, random.ours / other);
        println!("| {name} | {one:.2} | {ratio:.3} | {other:.2} | {other_ratio:.3} |");
    };
    for (i, Walk { name, .. }) in WALKS.iter().enumerate() {
        walk(name, ordered.walks[i], random.walks[i]);
        walk(NUMBER_ALONE, ordered.numbers[i], random.numbers[i]);
    }
}
