//! Any bytes to the seven calls: 200,000 calls in all, or as many as the variable
//! BALISE_CALLS says. Every answer, with what a refusal carries, and every byte of
//! the outputs and around them is that of the second program. Encode goes by both
//! engines, wherever it does not search, and for some of the blocks for which it
//! does. Encode and next search for some of the blocks that they could search for.
//! Some captures are searched by both searches.

use compare::calls::{check, encode, encode_by_both, make, next, read_both};
use compare::calls::{search, search_by_both, Tally};
use compare::telegrams::*;
use compare::{asked, burst, patterns};
use second::appendices::appendix_b;
use second::bad_words::{bad_telegrams, BadTelegram};
use second::bits::all_bits;
use second::format::{Format, FORMATS};
use second::random::Random;
use second::read::user_bits_of;
use second::telegram::{b_of, cut, esb_of, well_formed};
use second::words::KINDS;
use second::{encode_skipping, next_skipping};
use std::collections::BTreeSet;

/// Telegrams of each format besides those of Appendix B.
const TELEGRAMS: usize = 12;

/// Most bytes given to encode, make, next, check and read, and to search.
const LENGTH: usize = 2200;
const CAPTURE: usize = 7600;

/// Of so many blocks that would be encoded one is, and of so many for which the next
/// pair would be searched.
const ENCODED: usize = 10;
const LISTED: usize = 3;

/// Of so many blocks that are encoded, one is by the plain engine too, and of so many
/// captures one by the plain search.
const BY_BOTH: usize = 10;

/// A share of the calls, in hundredths.
fn share(hundredths: usize) -> usize {
    (asked("BALISE_CALLS", 200_000) * hundredths).div_ceil(100)
}

/// A source of inputs.
struct Inputs {
    random: Random,
    telegrams: Vec<Vec<u8>>,
    /// Kept telegrams that are well-formed and not proper.
    not_proper: Vec<Vec<u8>>,
    /// Telegrams of which some words are not in the table.
    bad: Vec<BadTelegram>,
}

impl Inputs {
    fn new(seed: u64) -> Inputs {
        let mut random = Random::new(seed);
        let rows = appendix_b().into_iter().map(|row| row.telegram_bits());
        let mut telegrams: Vec<Vec<u8>> = rows.collect();
        for format in FORMATS {
            telegrams.extend(random_telegrams(&mut random, format, TELEGRAMS));
        }
        let bad = bad_telegrams(&mut random);
        Inputs {
            random,
            telegrams,
            not_proper: kept_not_proper(),
            bad,
        }
    }

    /// Adds telegrams that are well-formed and that a condition bars, drawn and
    /// kept.
    fn add_barred(&mut self) {
        for format in FORMATS {
            for kinds in 1..=3 {
                let draw = |random: &mut Random| few_words(random, format, kinds);
                let accept = |t: &[u8]| well_formed(t, format) && second::check(t).is_err();
                self.telegrams
                    .push(drawn(&mut self.random, format, draw, accept));
            }
        }
        let draws = [(repeating_words as Draw, 11), (thinning_words, 12)];
        for (draw, number) in draws {
            let telegram = barred(&mut self.random, Format::Long, draw, number);
            self.telegrams.push(telegram);
        }
        self.telegrams.extend(self.not_proper.clone());
    }

    fn one_in(&mut self, count: usize) -> bool {
        self.random.below(count) == 0
    }

    fn bytes(&mut self, length: usize) -> Vec<u8> {
        (0..length).map(|_| self.random.number() as u8).collect()
    }

    fn telegram(&mut self) -> (Vec<u8>, Format) {
        let telegram = self.telegrams[self.random.below(self.telegrams.len())].clone();
        let format = Format::of_telegram(telegram.len()).unwrap();
        (telegram, format)
    }

    /// A telegram, or one with other bits or another word and the check bits
    /// put right again, or one with bad words.
    fn near_telegram(&mut self) -> (Vec<u8>, Format) {
        let (telegram, format) = self.telegram();
        let other = match self.random.below(5) {
            0 => {
                let count = 1 + self.random.below(22);
                let bits = self.random.bits(count);
                let place = self.random.below(format.telegram_bits() - 85 - count);
                with_bits(&telegram, format, place, &bits)
            }
            1 => {
                let word = other_word(&mut self.random);
                with_word(&telegram, format, self.random.below(format.blocks()), word)
            }
            2 => {
                // the settings between the shaped data and the check bits
                let bits = self.random.bits(25);
                with_bits(&telegram, format, format.shaped_bits(), &bits)
            }
            3 => {
                let bad = &self.bad[self.random.below(self.bad.len())];
                return (bad.bits.clone(), bad.format);
            }
            _ => telegram,
        };
        (other, format)
    }

    /// A telegram going round from any turn, perhaps flipped.
    fn going_round(&mut self, (telegram, _): (Vec<u8>, Format), length: usize) -> Vec<u8> {
        let turn = self.random.below(telegram.len());
        let flipped = self.one_in(2);
        cut(&telegram, turn, length, flipped)
    }

    /// Changes, insertions and deletions, or none.
    fn damage(&mut self, list: &mut Vec<u8>) {
        for _ in 0..[0, 0, 1, 1, 2, 5, 20][self.random.below(7)] {
            let place = self.random.below(list.len() + 1);
            let end = (place + 1 + self.random.below(90)).min(list.len());
            match self.random.below(12) {
                0..=4 if place < list.len() => list[place] ^= 1,
                5 | 6 => list.insert(place, self.random.bits(1)[0]),
                7 | 8 if place < list.len() => drop(list.remove(place)),
                9 => burst(&mut self.random, &mut list[place..end]),
                10 => drop(list.drain(place..end)),
                11 if place < list.len() && self.one_in(2) => {
                    list[place] = self.random.number() as u8;
                }
                _ => {}
            }
        }
    }

    /// A list for a call that takes these lengths: any bytes or bits of any
    /// length, lists of about or exactly those lengths, and damaged telegrams.
    fn list(&mut self, lengths: [usize; 2], whole: bool) -> Vec<u8> {
        let length = lengths[self.random.below(2)];
        let mut list = match self.random.below(10) {
            0 => {
                let any = self.random.below(LENGTH + 1);
                self.bytes(any)
            }
            1 => {
                let any = self.random.below(LENGTH + 1);
                self.random.bits(any)
            }
            2 => {
                let about = length - 2 + self.random.below(5);
                self.random.bits(about)
            }
            3 => self.bytes(length),
            4 => {
                let list = patterns(length);
                list[self.random.below(list.len())].clone()
            }
            5 => {
                let any = self.random.below(LENGTH + 1);
                let telegram = self.near_telegram();
                self.going_round(telegram, any)
            }
            6 => {
                let telegram = self.near_telegram();
                self.going_round(telegram, length)
            }
            _ if whole => self.near_telegram().0,
            _ => {
                let telegram = self.near_telegram();
                let length = telegram.1.window_bits();
                self.going_round(telegram, length)
            }
        };
        self.damage(&mut list);
        // most damaged lists are given one of the lengths again
        if list.len() > LENGTH || self.random.below(4) > 0 {
            let near = lengths.into_iter().min_by_key(|l| l.abs_diff(list.len()));
            let near = near.expect("two lengths");
            if list.len().abs_diff(near) < 100 || list.len() > LENGTH {
                list.resize(near, 0);
            }
        }
        list
    }

    /// A telegram that is not proper, going round for a window and some bits more.
    fn window_not_proper(&mut self) -> Vec<u8> {
        let telegram = self.not_proper[self.random.below(self.not_proper.len())].clone();
        let format = Format::of_telegram(telegram.len()).unwrap();
        let length = format.window_bits() + self.random.below(30);
        self.going_round((telegram, format), length)
    }

    /// A capture: noise, telegrams going round and any bytes, end to end. Few
    /// have zeros or telegrams that are not read, at which every place costs the
    /// second program much.
    fn capture(&mut self) -> Vec<u8> {
        let length = self.random.below(CAPTURE + 1);
        let mut capture = Vec::new();
        while capture.len() < length {
            let size = 1 + self.random.below(3000);
            let mut part = match self.random.below(4000) {
                0 => vec![self.random.bits(1)[0]; size.min(1300)],
                1..4 => {
                    let telegram = self.near_telegram();
                    self.going_round(telegram, size.min(1300))
                }
                4..40 => self.window_not_proper(),
                40..2000 => self.random.bits(size),
                _ => {
                    let telegram = self.telegram();
                    self.going_round(telegram, size)
                }
            };
            self.damage(&mut part);
            capture.extend(part);
        }
        capture.truncate(if self.one_in(50) { CAPTURE } else { length });
        match self.random.below(20) {
            0 => self.bytes(length),
            1 => capture,
            _ => capture.iter().map(|byte| byte & 1).collect(),
        }
    }

    /// A block with B and esb: any, those that a telegram is made of, also one
    /// with a bad word, and such with damage or another number.
    fn block_and_pair(&mut self) -> (Vec<u8>, u64, u64) {
        let bad = &self.bad[self.random.below(self.bad.len())];
        if let Some((block, b, esb)) = bad.made_of() {
            return (block, b.into(), esb.into());
        }
        let (telegram, format) = self.telegram();
        let mut block = user_bits_of(&telegram, format).expect("user bits");
        let mut b = u64::from(b_of(&telegram, format));
        let mut esb = u64::from(esb_of(&telegram, format));
        match self.random.below(4) {
            0 => block = self.list([830, 210], true),
            1 => self.damage(&mut block),
            _ => {}
        }
        if self.one_in(2) {
            b = self.number(4096, b);
        }
        if self.one_in(2) {
            esb = self.number(1024, esb);
        }
        (block, b, esb)
    }

    /// A number: any, one below a bound, about it, or with further bits before
    /// those of a good one.
    fn number(&mut self, bound: u64, good: u64) -> u64 {
        match self.random.below(6) {
            0 => self.random.number(),
            1 => bound - 2 + self.random.below(4) as u64,
            2 => good | 1 << self.random.below(64),
            3 => good ^ 1 << self.random.below(10),
            _ => self.random.below(bound as usize) as u64,
        }
    }

    /// The room for the telegram of a block, and whether a call would search for it, as
    /// it would where its numbers are good too. Of all such blocks but one in so many a
    /// byte is changed to one that is no bit, or the room is made too short, so that it
    /// does not.
    fn room_to_search(&mut self, block: &mut [u8], numbers: bool, one_in: usize) -> (usize, bool) {
        let format = Format::of_block(block.len());
        let needed = format.unwrap_or(Format::Long).telegram_bits();
        let room = self.room(needed);
        let searched = format.is_some() && all_bits(block) && numbers && room >= needed;
        if !searched || self.one_in(one_in) {
            return (room, searched);
        }
        if self.one_in(2) {
            let place = self.random.below(block.len());
            block[place] = 2 + self.random.below(254) as u8;
            (room, false)
        } else {
            (self.random.below(needed), false)
        }
    }

    /// The length of an output: any, or about the room that is needed.
    fn room(&mut self, needed: usize) -> usize {
        match self.random.below(4) {
            0 => self.random.below(LENGTH + 1),
            1 => needed - 1 + self.random.below(3),
            2 => self.random.below(needed),
            _ => needed + self.random.below(40),
        }
    }
}

/// The list at any address: some bytes into a buffer.
fn moved(random: &mut Random, list: &[u8]) -> (Vec<u8>, usize) {
    let at = random.below(16);
    ([&vec![7; at], list].concat(), at)
}

#[test]
fn encode_any_bytes() {
    let mut inputs = Inputs::new(101);
    let mut tally = Tally::default();
    let mut plain = 0;
    for _ in 0..share(14) {
        let mut block = inputs.list([830, 210], true);
        let (room, searched) = inputs.room_to_search(&mut block, true, ENCODED);
        let (buffer, at) = moved(&mut inputs.random, &block);
        let encode = if searched && !inputs.one_in(BY_BOTH) {
            encode
        } else {
            plain += usize::from(searched);
            encode_by_both
        };
        let (answer, _) = encode(&mut inputs.random, encode_skipping, &buffer[at..], room);
        tally.add(answer);
    }
    tally.print("calls of encode, by number");
    println!("      searched by the plain engine too: {plain}");
    assert_eq!(tally.numbers()[..4], [0, 1, 2, 3]);
}

#[test]
fn make_any_bytes() {
    let mut inputs = Inputs::new(105);
    inputs.add_barred();
    let mut tally = Tally::default();
    for _ in 0..share(8) {
        let (block, b, esb) = inputs.block_and_pair();
        let format = Format::of_block(block.len()).unwrap_or(Format::Long);
        let room = inputs.room(format.telegram_bits());
        let (buffer, at) = moved(&mut inputs.random, &block);
        tally.add(make(&mut inputs.random, &buffer[at..], b, esb, room).0);
    }
    tally.print("calls of make, by number");
    assert_eq!(tally.numbers(), [0, 1, 2, 3, 9, 27]);
    assert_eq!(tally.kinds(), BTreeSet::from(KINDS));
}

#[test]
fn next_any_bytes() {
    let mut inputs = Inputs::new(106);
    inputs.add_barred();
    let mut tally = Tally::default();
    let mut no_more = 0;
    for _ in 0..share(8) {
        let (mut block, b, esb) = inputs.block_and_pair();
        let numbers = b <= 4095 && esb <= 1023;
        let (room, _) = inputs.room_to_search(&mut block, numbers, LISTED);
        let (buffer, at) = moved(&mut inputs.random, &block);
        let random = &mut inputs.random;
        let (answer, _) = next(random, next_skipping, &buffer[at..], (b, esb), room);
        no_more += usize::from(answer == Ok(None));
        tally.add(answer);
    }
    tally.print("calls of next, by number");
    println!("      of those with 0 no more is said by {no_more}");
    assert_eq!(tally.numbers(), [0, 1, 2, 3, 27]);
    assert!(no_more > 0);
}

#[test]
fn check_any_bytes() {
    let mut inputs = Inputs::new(102);
    inputs.add_barred();
    let mut tally = Tally::default();
    for _ in 0..share(20) {
        let telegram = inputs.list([1023, 341], true);
        let (buffer, at) = moved(&mut inputs.random, &telegram);
        tally.add(check(&buffer[at..]));
    }
    tally.print("calls of check, by number");
    assert_eq!(tally.numbers(), [0, 1, 2, 6, 7, 8, 9, 10, 11, 12]);
    assert_eq!(tally.kinds(), BTreeSet::from(KINDS));
}

/// Each window goes to both window calls.
#[test]
fn read_any_bytes() {
    let mut inputs = Inputs::new(103);
    inputs.add_barred();
    let (mut tally, mut other_tally) = (Tally::default(), Tally::default());
    for _ in 0..share(20) {
        let window = inputs.list([1100, 462], false);
        let needed = Format::of_window(window.len())
            .unwrap_or(Format::Long)
            .user_bits();
        let room = inputs.room(needed);
        let (buffer, at) = moved(&mut inputs.random, &window);
        let [proper, well_formed] = read_both(&mut inputs.random, &buffer[at..], room);
        tally.add(proper);
        other_tally.add(well_formed);
    }
    tally.print("calls of read, by number");
    other_tally.print("calls of read_well_formed, by number");
    assert_eq!(tally.numbers(), [0, 1, 2, 3, 5, 6, 7, 8, 9, 10, 11, 12]);
    assert_eq!(other_tally.numbers(), [0, 1, 2, 3, 5, 6, 7, 8, 9]);
    assert_eq!(tally.kinds(), BTreeSet::from(KINDS));
    assert_eq!(tally.words(), other_tally.words());
}

#[test]
fn search_any_bytes() {
    let mut inputs = Inputs::new(104);
    let mut tally = Tally::default();
    let mut plain = 0;
    for _ in 0..share(10) {
        let capture = inputs.capture();
        let (buffer, at) = moved(&mut inputs.random, &capture);
        let search = if inputs.one_in(BY_BOTH) {
            plain += 1;
            search_by_both
        } else {
            search
        };
        tally.add(search(&mut inputs.random, &buffer[at..]));
    }
    tally.print("calls of search, by number");
    println!("      searched by the plain search too: {plain}");
    assert_eq!(tally.numbers(), [0, 1, 2, 13]);
}
