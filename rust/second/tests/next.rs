//! The next proper pair at or after a given one, and all of them (document 02,
//! No. 9).

use second::appendices::block_without_a_pair;
use second::format::{Format, FORMATS};
use second::made::encoded;
use second::pairs::Pair;
use second::random::Random;
use second::telegram::make;
use second::Refusal::{self, Number};
use second::{check, next, next_skipping, pairs, pairs_skipping, Next};

/// The last B and the last esb.
const LAST: (u16, u16) = (4095, 1023);

/// One of the two searches.
type Search = fn(&[u8], u64, u64, &mut [u8]) -> Result<Option<Next>, Refusal>;

const SEARCHES: [Search; 2] = [next, next_skipping];

/// The answer, and the whole output, which held nines.
fn lent(
    search: Search,
    block: &[u8],
    b: u64,
    esb: u64,
    room: usize,
) -> (Result<Option<Next>, Refusal>, Vec<u8>) {
    let mut output = vec![9; room];
    let answer = search(block, b, esb, &mut output);
    (answer, output)
}

/// The pair found from this one on, into an output with some spare bytes, which are
/// kept; where none is found, all are.
fn found(search: Search, block: &[u8], (b, esb): (u16, u16)) -> Option<Pair> {
    let format = Format::of_block(block.len()).unwrap();
    let n = format.telegram_bits();
    let (answer, mut output) = lent(search, block, b.into(), esb.into(), n + 3);
    assert_eq!(output.split_off(n), [9; 3]);
    match answer.unwrap() {
        Some(found) => {
            assert_eq!(found.format, format);
            Some(Pair {
                b: found.b,
                esb: found.esb,
                telegram: output,
            })
        }
        None => {
            assert_eq!(output, vec![9; n]);
            None
        }
    }
}

/// The pair just after another; none after the last.
fn after((b, esb): (u16, u16)) -> Option<(u16, u16)> {
    match (b, esb) {
        LAST => None,
        (b, 1023) => Some((b + 1, 0)),
        (b, esb) => Some((b, esb + 1)),
    }
}

/// What is found by starting at 0, 0 and going on just after each answer.
fn walked(search: Search, block: &[u8]) -> Vec<Pair> {
    let mut from = Some((0, 0));
    let mut list = Vec::new();
    while let Some(pair) = from.and_then(|from| found(search, block, from)) {
        from = after((pair.b, pair.esb));
        list.push(pair);
    }
    list
}

/// A block, and its whole list by the search that drops scrambling bits.
fn listed(seed: u64, format: Format) -> (Vec<u8>, Vec<Pair>) {
    let block = Random::new(seed).bits(format.user_bits());
    let list = pairs_skipping(&block).unwrap().collect();
    (block, list)
}

/// All 4,194,304 pairs of a block, each formed and tested: the other search gives
/// the same list. In it no pair comes twice, all rise, and every telegram is proper
/// and that of its pair.
fn whole_list(format: Format) {
    let (block, list) = listed(161, format);
    assert_eq!(pairs(&block).unwrap().collect::<Vec<_>>(), list);
    println!("{} pairs of a {} block", list.len(), format.name());
    assert!(list.len() > 20);
    assert!(list.is_sorted_by_key(|pair| (pair.b, pair.esb)));
    for pair in &list {
        assert_eq!(check(&pair.telegram), Ok(format));
        assert_eq!(pair.telegram, make(&block, pair.b, pair.esb, format));
    }
}

#[test]
fn whole_list_of_a_long_block() {
    whole_list(Format::Long);
}

#[test]
fn whole_list_of_a_short_block() {
    whole_list(Format::Short);
}

/// With the scrambling bits of listed pairs, the telegrams that check accepts are
/// the listed ones.
#[test]
fn what_check_accepts_is_listed() {
    for format in FORMATS {
        let (block, list) = listed(162, format);
        for &Pair { b, .. } in list.iter().step_by(16) {
            let accepted = (0..1024).filter(|&esb| check(&make(&block, b, esb, format)).is_ok());
            let with_b = list.iter().filter(|pair| pair.b == b);
            let with_b: Vec<u16> = with_b.map(|pair| pair.esb).collect();
            assert_eq!(accepted.collect::<Vec<_>>(), with_b);
        }
    }
}

/// Going on just after each answer gives the whole list.
#[test]
fn going_on_just_after_each() {
    for format in FORMATS {
        let (block, list) = listed(163, format);
        assert_eq!(walked(next_skipping, &block), list);
        let (first, telegram) = encoded(&block);
        assert_eq!((first.b, first.esb), (list[0].b, list[0].esb));
        assert_eq!(telegram, list[0].telegram);
    }
}

/// From any start both searches give the first listed pair at or after it; so from a
/// listed pair that very one.
#[test]
fn from_a_start() {
    let mut random = Random::new(166);
    for format in FORMATS {
        let (block, list) = listed(166, format);
        let mut starts = vec![(0, 0), (list[0].b, list[0].esb)];
        for _ in 0..8 {
            let pair = &list[random.below(list.len())];
            starts.push((pair.b, pair.esb));
            starts.extend(after((pair.b, pair.esb)));
            starts.push((random.below(4096) as u16, random.below(1024) as u16));
        }
        for start in starts {
            let expected = list.iter().find(|pair| (pair.b, pair.esb) >= start);
            for search in SEARCHES {
                assert_eq!(found(search, &block, start).as_ref(), expected);
            }
        }
    }
}

/// From just after the last pair on there are no more, whatever the start.
#[test]
fn no_more() {
    for format in FORMATS {
        let (block, list) = listed(167, format);
        let last = list.last().unwrap();
        let start = after((last.b, last.esb)).unwrap();
        for start in [start, (4095, 0), LAST] {
            for search in SEARCHES {
                assert_eq!(found(search, &block, start), None);
            }
        }
    }
    let block = block_without_a_pair();
    for start in [(0, 0), (1, 0), (2048, 1023), LAST] {
        assert_eq!(found(next_skipping, &block, start), None);
    }
    assert_eq!(pairs_skipping(&block).unwrap().count(), 0);
}

/// Every combination of faults: the refusal is the first, in the order 1, 2, 27,
/// 3, of those that apply, and keeps every byte.
#[test]
fn the_order_of_the_refusals() {
    const ORDER: [u8; 4] = [1, 2, 27, 3];
    for format in FORMATS {
        let (m, n) = (format.user_bits(), format.telegram_bits());
        let user = Random::new(168).bits(m);
        let pair = encoded(&user).0;
        for faults in 0..1 << ORDER.len() {
            let applies = |number| {
                let at = ORDER.iter().position(|&other| other == number).unwrap();
                faults >> at & 1 == 1
            };
            let mut block = user.clone();
            if applies(2) {
                block[m - 1] = 2;
            }
            if applies(1) {
                block.remove(0);
            }
            let esb = if applies(27) { 1024 } else { pair.esb.into() };
            let room = if applies(3) { n - 1 } else { n };
            for search in SEARCHES {
                let (answer, output) = lent(search, &block, pair.b.into(), esb, room);
                let first = ORDER.into_iter().find(|&number| applies(number));
                assert_eq!(answer.err().map(Refusal::number), first, "{faults:b}");
                assert!(answer.is_ok() || output.iter().all(|&byte| byte == 9));
            }
            let refused = pairs(&block).err().map(Refusal::number);
            let first = ORDER[..2].iter().copied().find(|&number| applies(number));
            assert_eq!(refused, first);
        }
    }
}

/// Starts up to the limits and over them, also those of which the lowest bits alone
/// would be a good one.
#[test]
fn numbers_too_large() {
    for format in FORMATS {
        let n = format.telegram_bits();
        let user = Random::new(169).bits(format.user_bits());
        let pair = encoded(&user).0;
        let (b, esb) = (u64::from(pair.b), u64::from(pair.esb));
        let refused = |b, esb| lent(next, &user, b, esb, n).0 == Err(Number(27));
        assert!(!refused(b, esb));
        assert!(!refused(4095, 1023));
        for large in [4096, u64::from(u32::MAX), 1 << 63, u64::MAX] {
            assert!(refused(large, esb) && refused(b, large) && refused(large, large));
        }
        assert!(refused(b, 1024));
        for shift in 12..64 {
            assert!(refused(b | 1 << shift, esb));
            assert!(refused(b, esb | 1 << (shift - 2)));
        }
    }
}

#[test]
fn lengths() {
    for length in [0, 1, 209, 211, 829, 831, 1023] {
        for search in SEARCHES {
            assert_eq!(lent(search, &vec![2; length], 4096, 0, 0).0, Err(Number(1)));
        }
    }
}
