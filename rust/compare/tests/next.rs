//! The next proper pair of a block at or after a given one: the answer, each refusal
//! in its order, and every byte of the output; and all pairs of a block, one after
//! the other (document 02, No. 9). Blocks have the whole list of the second program,
//! by its search that drops scrambling bits: from any start on, what is next is in
//! the list. Some starts go to the second program's search that forms each pair.

use balise::{Choice, Refusal as Refused};
use compare::calls::{check, encode, next, Tally};
use compare::faults::{self, Given};
use compare::lists::{pair_of_number, List};
use compare::{asked, both_formats, on_all_processors, patterns};
use second::appendices::{appendix_b, block_without_a_pair};
use second::encode::PAIRS;
use second::format::{Format, FORMATS};
use second::made::{with_few_pairs, A_HUNDRED, ONE_MORE};
use second::pairs::Pair;
use second::random::Random;
use second::read::user_bits_of;
use second::{encode_skipping, next_skipping, Encoded, Next, Refusal};

/// Random blocks of each format that are listed, or as many as BALISE_LISTS says.
const BLOCKS: usize = 14;

/// Random starts in each list.
const STARTS: usize = 200;

/// Of the listed telegrams one in so many is checked by the second program too.
const CHECKED: usize = 20;

/// What is told of the lists that were compared.
#[derive(Default)]
struct Counts {
    lists: usize,
    pairs: usize,
    fewest: usize,
    most: usize,
    calls: usize,
    no_more: usize,
}

impl Counts {
    fn add(&mut self, pairs: usize, calls: usize, no_more: usize) {
        self.fewest = if self.lists == 0 {
            pairs
        } else {
            self.fewest.min(pairs)
        };
        self.most = self.most.max(pairs);
        self.lists += 1;
        self.pairs += pairs;
        self.calls += calls;
        self.no_more += no_more;
    }

    fn print(&self, what: &str) {
        println!(
            "{} lists of {what}: {} pairs, {} to {} in a list; {} calls of next, of which {} say no more",
            self.lists, self.pairs, self.fewest, self.most, self.calls, self.no_more
        );
    }
}

/// The first pair and its telegram are what encode gives; where it refuses with 4
/// there is none.
fn first_is_that_of_encode(random: &mut Random, list: &List) {
    let n = list.format.telegram_bits();
    let (answer, telegram) = encode(random, encode_skipping, &list.block, n);
    match (answer, list.pairs.first()) {
        (Ok(Encoded { b, esb, .. }), Some(first)) => {
            assert_eq!((b, esb), (first.b, first.esb));
            assert_eq!(telegram, first.telegram);
        }
        (answer, first) => {
            assert_eq!(answer, Err(Refusal::NoPair { tried: PAIRS }));
            assert_eq!(first, None);
        }
    }
}

/// Check accepts every listed telegram, and make makes it of its pair.
fn listed_telegrams_are_proper(list: &List) {
    for (i, Pair { b, esb, telegram }) in list.pairs.iter().enumerate() {
        assert!(balise::check(telegram).is_ok());
        if i % CHECKED == 0 {
            assert_eq!(check(telegram), Ok(list.format));
        }
        let mut made = vec![0; telegram.len()];
        let format = balise::make(&list.block, (*b).into(), (*esb).into(), &mut made);
        assert!(format.is_ok());
        assert_eq!(made, *telegram);
    }
}

/// What the iterator gives is the list, from a start on, and then no more.
fn iterated(list: &List, start: (u16, u16), pairs: Result<balise::Pairs, Refused>) {
    let mut pairs = pairs.expect("a good block and start");
    for expected in list.from(start) {
        let Choice { pair, telegram } = pairs.next().expect("a pair");
        assert_eq!(pair.format.telegram_bits(), list.format.telegram_bits());
        assert_eq!((pair.b, pair.esb), (expected.b, expected.esb));
        assert_eq!(telegram, expected.telegram);
    }
    for _ in 0..3 {
        assert_eq!(pairs.next(), None);
    }
}

/// The iterator from the first pair on, from a random start on, and from a pair on.
fn compare_iterator(random: &mut Random, list: &List) {
    iterated(list, (0, 0), balise::pairs(&list.block));
    let mut starts = vec![(random.below(4096) as u16, random.below(1024) as u16)];
    if !list.pairs.is_empty() {
        let pair = &list.pairs[random.below(list.pairs.len())];
        starts.push((pair.b, pair.esb));
    }
    for (b, esb) in starts {
        let pairs = balise::pairs_from(&list.block, b.into(), esb.into());
        iterated(list, (b, esb), pairs);
    }
}

/// Compares all of a list; gives how many calls of next there were, and how many of
/// them said no more.
fn compare_list(random: &mut Random, list: &List) -> (usize, usize) {
    first_is_that_of_encode(random, list);
    listed_telegrams_are_proper(list);
    compare_iterator(random, list);
    let walked = list.compare_whole(random, &balise::next);
    let starts = list.starts(random, STARTS);
    list.compare_starts(random, &balise::next, &starts);
    let too_large = list.compare_too_large(random, &balise::next);
    let at_end = |&&(b, esb): &&(u64, u64)| list.from((b as u16, esb as u16)).is_empty();
    let no_more = 1 + starts.iter().filter(at_end).count();
    (walked + starts.len() + too_large, no_more)
}

/// Compares the lists of some blocks, and prints the counts: how many pairs each has.
fn compare_lists(what: &str, seed: u64, blocks: &[Vec<u8>]) -> Vec<usize> {
    let results = on_all_processors(blocks, |i, block| {
        let mut random = Random::new(seed << 32 | i as u64);
        let list = List::of(block.clone());
        let (calls, no_more) = compare_list(&mut random, &list);
        (list.pairs.len(), calls, no_more)
    });
    let mut counts = Counts::default();
    for &(pairs, calls, no_more) in &results {
        counts.add(pairs, calls, no_more);
    }
    counts.print(what);
    results.into_iter().map(|(pairs, ..)| pairs).collect()
}

#[test]
fn random_blocks() {
    for format in FORMATS {
        let mut random = Random::new(171);
        let count = asked("BALISE_LISTS", BLOCKS);
        let blocks: Vec<Vec<u8>> = (0..count)
            .map(|_| random.bits(format.user_bits()))
            .collect();
        compare_lists(&format!("random {} blocks", format.name()), 171, &blocks);
    }
}

/// All 0, all 1 and some periods, and the blocks that the telegrams of Appendix B
/// carry.
#[test]
fn patterns_and_appendix_b() {
    for format in FORMATS {
        let mut blocks = patterns(format.user_bits());
        blocks.truncate(6);
        let rows = appendix_b()
            .into_iter()
            .filter(|row| row.format() == format);
        blocks.extend(rows.map(|row| user_bits_of(&row.telegram_bits(), format).expect("bits")));
        let what = format!("patterned {} blocks and those of Appendix B", format.name());
        compare_lists(&what, 172, &blocks);
    }
}

/// None, few, exactly a hundred, and one more.
#[test]
fn blocks_with_few_pairs() {
    let places = [808, 763, A_HUNDRED, ONE_MORE];
    let few = places.map(|place| with_few_pairs(place).expect("a block"));
    let blocks = [&[block_without_a_pair()], &few[..]].concat();
    let pairs = compare_lists("blocks with few pairs", 173, &blocks);
    assert!(pairs[0] == 0 && pairs[1] > 0 && pairs[3..] == [100, 101]);
}

/// Starts from which the second program forms and tests each pair.
#[test]
fn pairs_formed_one_by_one() {
    both_formats(174, |format, random| {
        let (mut calls, mut tried) = (0, 0);
        for _ in 0..20 {
            let block = random.bits(format.user_bits());
            let mut start = random.below(PAIRS as usize) as u64;
            for _ in 0..3 {
                let room = format.telegram_bits() + random.below(40);
                let from = pair_of_number(start).expect("a start");
                let (answer, _) = next(random, second::next, &block, from, room);
                calls += 1;
                let Some(Next { b, esb, .. }) = answer.expect("a good start") else {
                    break;
                };
                let number = 1024 * u64::from(b) + u64::from(esb);
                tried += number + 1 - start;
                // from the pair itself, and then from just after it
                start = if number == start { start + 1 } else { number };
            }
        }
        let name = format.name();
        println!("{calls} calls of next on {name} blocks, with {tried} pairs formed one by one");
    });
}

/// The number of the refusal, if next refuses.
fn refused(random: &mut Random, given: &Given, room: usize) -> Option<u8> {
    let start = (given.b, given.esb);
    let (answer, _) = next(random, next_skipping, &given.block, start, room);
    answer.err().map(Refusal::number)
}

/// Every combination of faults, by the second program that forms each pair.
#[test]
fn combinations_of_faults() {
    let mut random = Random::new(175);
    let mut tally = Tally::default();
    for format in FORMATS {
        for _ in 0..60 {
            let good = Given::random(&mut random, format);
            let mut compare = |random: &mut Random, given: &Given, room| {
                let start = (given.b, given.esb);
                let (answer, _) = next(random, second::next, &given.block, start, room);
                tally.add(answer);
                answer.err().map(Refusal::number)
            };
            let order = [1, 2, 27, 3];
            faults::combinations(&mut random, &order, &good, |_| None, &mut compare);
        }
    }
    tally.print("calls of next with every combination of faults, by number");
    assert_eq!(tally.numbers(), [0, 1, 2, 3, 27]);
}

/// 4095 and 1023 are the last that are not too large.
#[test]
fn numbers_too_large() {
    both_formats(176, |format, random| {
        for _ in 0..5 {
            let good = Given::random(random, format);
            for (b, esb) in [(4095, good.esb), (good.b, 1023), (4095, 1023), (4095, 0)] {
                let block = good.block.clone();
                let n = format.telegram_bits();
                assert_eq!(refused(random, &Given { block, b, esb }, n), None);
            }
            faults::numbers_too_large(random, &good, &mut refused);
        }
    });
}

#[test]
fn outputs_that_are_too_short() {
    both_formats(177, |format, random| {
        let good = Given::random(random, format);
        faults::outputs_that_are_too_short(random, &good, &mut refused);
    });
}

/// Outputs that are too short are refused also where there is no pair.
#[test]
fn outputs_that_are_too_short_for_no_pair() {
    let mut random = Random::new(178);
    let block = block_without_a_pair();
    let (n, b, esb) = (Format::Long.telegram_bits(), 4095, 1023);
    let given = Given { block, b, esb };
    for (room, number) in [(0, Some(3)), (n - 1, Some(3)), (n, None), (n + 9, None)] {
        assert_eq!(refused(&mut random, &given, room), number);
    }
}

#[test]
fn bytes_that_are_no_bits() {
    both_formats(179, |format, random| {
        let good = Given::random(random, format);
        faults::bytes_that_are_no_bits(random, &good, &mut refused);
    });
}

#[test]
fn lengths_that_fit_no_format() {
    let mut random = Random::new(180);
    let good = Given::random(&mut random, Format::Long);
    faults::lengths_that_fit_no_format(&mut random, &good, &mut refused);
}

/// The iterator refuses where it is made.
#[test]
fn refusals_of_the_iterator() {
    both_formats(181, |format, random| {
        let block = random.bits(format.user_bits());
        let mut no_bit = block.clone();
        no_bit[0] = 2;
        let refusal = |pairs: Result<balise::Pairs, Refused>| pairs.err();
        assert_eq!(refusal(balise::pairs(&block[1..])), Some(Refused::Length));
        assert_eq!(refusal(balise::pairs(&no_bit)), Some(Refused::NotBit));
        for (b, esb) in [(4096, 0), (0, 1024), (u64::MAX, u64::MAX)] {
            let too_large = Some(Refused::PairTooLarge);
            assert_eq!(refusal(balise::pairs_from(&block, b, esb)), too_large);
            let not_bit = Some(Refused::NotBit);
            assert_eq!(refusal(balise::pairs_from(&no_bit, b, esb)), not_bit);
        }
        assert_eq!(refusal(balise::pairs_from(&block, 4095, 1023)), None);
    });
}
