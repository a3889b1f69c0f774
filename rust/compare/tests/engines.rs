//! The two engines of the encoder, `balise::encode` and `balise::encode_plain`:
//! on the same block both answer the same, format, B, esb and count or a refusal
//! with what it carries, and leave the same bytes in an output that is longer than
//! the telegram. The second program answers and writes the same on every block: by
//! its plain search on some, by the one that drops scrambling bits on the others.
//!
//! Three ways are both engines and the second program. Two ways are `balise::encode`
//! and the second program, where the plain engine would take too long.

use compare::calls::{encode, encode_by_both, plain_engine, Encoder, Tally};
use compare::{asked, both_formats, on_all_processors, patterns};
use second::appendices::{appendix_b, block_without_a_pair};
use second::bits::{bits_of, flip};
use second::conditions::{off_step_limit, off_step_run, Course};
use second::encode::PAIRS;
use second::format::{Format, FORMATS};
use second::made::{bits_of_words, random_word};
use second::random::Random;
use second::read::{scrambled_bits_of, user_bits_of};
use second::scrambling::{descramble, restore_first};
use second::telegram::shaped_data;
use second::words::{valid, WORD_BITS};
use second::{encode_skipping, Encoded, Refusal};

/// Random blocks of each format that are compared three ways, and two ways.
const THREE_WAYS: usize = 2000;
const TWO_WAYS: usize = 1000;

/// Of the random blocks of each format so many go to the second program's plain
/// search, or as many as BALISE_BLOCKS says.
const PLAINLY: usize = 100;

/// A block, the second program's search that it goes to, and whether it also goes to
/// the plain engine.
struct Case {
    block: Vec<u8>,
    second: Encoder,
    three_ways: bool,
}

/// What is told of the blocks that were compared.
#[derive(Default)]
struct Counts {
    three_ways: usize,
    two_ways: usize,
    most_tried: u32,
    refused: usize,
}

impl Counts {
    fn add(&mut self, case: &Case, answer: &Result<Encoded, Refusal>) {
        if case.three_ways {
            self.three_ways += 1;
        } else {
            self.two_ways += 1;
        }
        match answer {
            Ok(encoded) => self.most_tried = self.most_tried.max(encoded.count),
            Err(refusal) => {
                assert_eq!(*refusal, Refusal::NoPair { tried: PAIRS });
                self.refused += 1;
            }
        }
    }

    fn print(&self, what: &str) {
        println!(
            "{what}: {} three ways, {} two ways; at most {} pairs tried, {} refused with 4",
            self.three_ways, self.two_ways, self.most_tried, self.refused
        );
    }
}

/// A block for the second program's quicker search, and the plain engine or not.
fn case(block: Vec<u8>, three_ways: bool) -> Case {
    Case {
        block,
        second: encode_skipping,
        three_ways,
    }
}

fn three_ways(block: Vec<u8>) -> Case {
    case(block, true)
}

/// Compares the blocks, each with an output that is longer than its telegram, and
/// prints the counts: what was answered.
fn compare(what: &str, seed: u64, cases: &[Case]) -> Vec<Result<Encoded, Refusal>> {
    let answers = on_all_processors(cases, |i, case| {
        let mut random = Random::new(seed << 32 | i as u64);
        let format = Format::of_block(case.block.len()).expect("a block");
        let room = format.telegram_bits() + 1 + random.below(40);
        let encode = if case.three_ways {
            encode_by_both
        } else {
            encode
        };
        let (answer, _) = encode(&mut random, case.second, &case.block, room);
        if let Ok(Encoded { b, esb, count, .. }) = answer {
            assert_eq!(count, 1024 * u32::from(b) + u32::from(esb) + 1);
        }
        answer
    });
    let mut counts = Counts::default();
    for (case, answer) in cases.iter().zip(&answers) {
        counts.add(case, answer);
    }
    counts.print(what);
    answers
}

/// The same for blocks of one format.
fn compare_in(
    format: Format,
    what: &str,
    seed: u64,
    cases: &[Case],
) -> Vec<Result<Encoded, Refusal>> {
    compare(&format!("{} {what}", format.name()), seed, cases)
}

/// The plain engine tries all pairs, in some seconds.
#[test]
fn a_block_without_a_pair() {
    let answers = compare(
        "block without a pair",
        1,
        &[three_ways(block_without_a_pair())],
    );
    assert_eq!(answers, [Err(Refusal::NoPair { tried: PAIRS })]);
}

#[test]
fn random_blocks() {
    both_formats(2, |format, random| {
        let plainly = asked("BALISE_BLOCKS", PLAINLY);
        let all = THREE_WAYS.max(plainly) + TWO_WAYS;
        let cases: Vec<Case> = (0..all)
            .map(|i| {
                let mut case = case(random.bits(format.user_bits()), i + TWO_WAYS < all);
                if i < plainly {
                    case.second = second::encode;
                }
                case
            })
            .collect();
        compare_in(format, "random blocks", 2, &cases);
    });
}

/// The blocks that the printed telegrams carry, and the printed blocks, filled.
#[test]
fn blocks_of_appendix_b() {
    let blocks = appendix_b().into_iter().flat_map(|row| {
        let carried = user_bits_of(&row.telegram_bits(), row.format());
        [carried.expect("user bits"), row.filled_user_bits()]
    });
    let cases: Vec<Case> = blocks.map(three_ways).collect();
    compare("blocks of Appendix B", 3, &cases);
}

/// Blocks with one 1, and with one 0. The long ones with one 0 go two ways.
#[test]
fn blocks_with_a_single_bit() {
    for format in FORMATS {
        let m = format.user_bits();
        let mut cases = Vec::new();
        for place in 0..m {
            let block: Vec<u8> = (0..m).map(|i| u8::from(i == place)).collect();
            let flipped = flip(&block);
            cases.push(three_ways(block));
            cases.push(case(flipped, format == Format::Short));
        }
        compare_in(format, "blocks with a single 1 or 0", 4, &cases);
    }
}

/// Blocks of m bits by a rule: both ways up.
fn both_ways_up(blocks: &mut Vec<Vec<u8>>, m: usize, bit: impl Fn(usize) -> bool) {
    let block: Vec<u8> = (0..m).map(|i| u8::from(bit(i))).collect();
    blocks.push(flip(&block));
    blocks.push(block);
}

/// One change and many; words over and over; few bits; tens of bits that count up.
fn other_patterns(random: &mut Random, m: usize) -> Vec<Vec<u8>> {
    let mut blocks = Vec::new();
    for end in [2, 9, 10, 11, m / 4, m / 2, m - m / 4, m - 10, m - 2] {
        both_ways_up(&mut blocks, m, |i| i < end);
    }
    for run in [2, 3, 4, 5, 8, 10, 11, 20, 32, 55, 100] {
        both_ways_up(&mut blocks, m, |i| i / run % 2 == 1);
    }
    for width in [5, 7, 8, 10, 11, 13, 16, 32, 64, 110] {
        let word = random.bits(width);
        both_ways_up(&mut blocks, m, |i| word[i % width] == 1);
    }
    for few in [2, 3, 5, 10] {
        let places = random.places(few, m);
        both_ways_up(&mut blocks, m, |i| places.contains(&i));
    }
    for factor in [1, 7, 511] {
        let tens = (0..m / 10).flat_map(|i| bits_of((i as u128 * factor) % 1024, 10));
        blocks.push(tens.collect());
    }
    blocks
}

/// All 0, all 1, alternating and other periods, for which the second program forms
/// each pair, and other patterns.
#[test]
fn patterned_blocks() {
    both_formats(5, |format, random| {
        let m = format.user_bits();
        let mut cases: Vec<Case> = patterns(m).into_iter().map(three_ways).collect();
        for case in &mut cases {
            case.second = second::encode;
        }
        cases.extend(other_patterns(random, m).into_iter().map(three_ways));
        compare_in(format, "patterned blocks", 5, &cases);
    });
}

/// A word of shaped data being made, and at each step the run that ends with the
/// word across the one before and this one.
type Placed = (u16, [usize; WORD_BITS]);

/// Draws of a word, before the one before it is drawn again.
const DRAWS: usize = 200;

/// A run at step p, of so many words from word `first` on.
struct Run {
    p: usize,
    first: usize,
    words: usize,
}

impl Run {
    /// Whether these may be the runs, at each step, that end with the word across
    /// word `index` and the next: this run and nothing just before or after it, and
    /// none over the limit elsewhere.
    fn allows(&self, format: Format, index: usize, runs: &[usize; WORD_BITS]) -> bool {
        let end = self.first + self.words;
        (1..WORD_BITS).all(|q| {
            if q != self.p || index + 1 < self.first || index > end {
                runs[q] <= off_step_limit(q, format)
            } else {
                (runs[q] > 0) == (self.first..end).contains(&index)
            }
        })
    }

    /// A word of the table to follow the last.
    fn following(
        &self,
        random: &mut Random,
        format: Format,
        index: usize,
        (last, before): &Placed,
    ) -> Option<Placed> {
        (0..DRAWS).find_map(|_| {
            let word = random_word(random);
            let mut runs = [0; WORD_BITS];
            for q in 1..WORD_BITS {
                let across = (last << q | word >> (WORD_BITS - q)) & 2047;
                runs[q] = if valid(across) { before[q] + 1 } else { 0 };
            }
            self.allows(format, index, &runs).then_some((word, runs))
        })
    }

    /// Shaped data with this run, and none over the limit beside it.
    fn shaped_data(&self, random: &mut Random, format: Format) -> Vec<u8> {
        let mut placed: Vec<Placed> = Vec::new();
        while placed.len() < format.blocks() {
            let next = match placed.last() {
                Some(last) => self.following(random, format, placed.len() - 1, last),
                None => Some((random_word(random), [0; WORD_BITS])),
            };
            match next {
                Some(next) => placed.push(next),
                None => drop(placed.pop()),
            }
        }
        let words: Vec<u16> = placed.iter().map(|&(word, _)| word).collect();
        let shaped = bits_of_words(&words);
        for q in 1..WORD_BITS {
            let longest = off_step_run(&shaped, q, Course::Strip);
            if q == self.p {
                assert_eq!(longest, self.words);
            } else {
                assert!(longest <= off_step_limit(q, format));
            }
        }
        shaped
    }
}

/// The block that has this shaped data with this B.
fn block_of(shaped: &[u8], b: u16, format: Format) -> Vec<u8> {
    let scrambled = scrambled_bits_of(shaped, format).expect("words of the table");
    let block = restore_first(&descramble(&scrambled, b));
    assert_eq!(shaped_data(&block, b), shaped);
    block
}

/// The first B whose own word is in the table.
fn first_b() -> u16 {
    let first = (0..4096).find(|b| valid(0b001 << 8 | b >> 4));
    first.expect("a B")
}

/// Blocks whose shaped data, with the first B that can have a pair, has a run of
/// the limit or of one word more: at each step, from the first word on, in the
/// midst, and up to the last. With one word more the pair has another B; with the
/// limit that B may be the pair's, and often is.
#[test]
fn blocks_with_runs_about_the_limit() {
    let b = first_b();
    both_formats(6, |format, random| {
        for (more, what) in [(0, "of the limit"), (1, "of one word more")] {
            let mut cases = Vec::new();
            for p in 1..=10 {
                let words = off_step_limit(p, format) + more;
                let last = format.blocks() - 1 - words;
                for first in [0, 1 + random.below(last - 1), last] {
                    let shaped = Run { p, first, words }.shaped_data(random, format);
                    cases.push(three_ways(block_of(&shaped, b, format)));
                }
            }
            let what = format!("blocks with a run {what}");
            let answers = compare_in(format, &what, 6, &cases);
            let of_b = |answer: &&Result<Encoded, Refusal>| matches!(answer, Ok(e) if e.b == b);
            let with_b = answers.iter().filter(of_b).count();
            println!("      of these the pair has B {b}: {with_b}");
            assert_eq!(with_b > 0, more == 0);
        }
    });
}

/// Every combination of what refusals 1, 2 and 3 are for, with the plain engine in
/// the place of the second program: the lowest, and every byte kept. `encode` has
/// more of them.
#[test]
fn refusals_before_the_search() {
    let mut tally = Tally::default();
    for format in FORMATS {
        let random = &mut Random::new(7);
        let (m, n) = (format.user_bits(), format.telegram_bits());
        for round in 0..1400 {
            let faults = 1 + round % 7;
            let mut block = random.bits(m);
            let mut room = n + random.below(40);
            if faults & 1 != 0 {
                block.resize([m - 1, m + 1][random.below(2)], 0);
            }
            if faults & 2 != 0 {
                let place = random.below(block.len());
                block[place] = 2 + random.below(254) as u8;
            }
            if faults & 4 != 0 {
                room = random.below(n);
            }
            let (answer, _) = encode(random, plain_engine, &block, room);
            let lowest = 1 + i32::trailing_zeros(faults) as u8;
            assert_eq!(answer, Err(Refusal::Number(lowest)));
            tally.add(answer);
        }
    }
    tally.print("blocks refused before the search, by number");
}
