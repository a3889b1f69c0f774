//! Listers that are wrong, made from whole lists of the second program: the
//! comparison of tests/next.rs finds what is wrong with each, and nothing with the
//! right one made in the same way.

use balise::Refusal;
use compare::lists::{List, Lister};
use second::format::{Format, FORMATS};
use second::pairs::Pair;
use second::random::Random;
use std::panic::{catch_unwind, set_hook, take_hook, AssertUnwindSafe};

/// The answer that gives a pair of the list, or none, its telegram written.
type Answer = Result<Option<balise::Pair>, Refusal>;

fn give(list: &List, pair: Option<&Pair>, output: &mut [u8]) -> Answer {
    let format = match list.format {
        Format::Long => balise::Format::Long,
        Format::Short => balise::Format::Short,
    };
    Ok(pair.map(|Pair { b, esb, telegram }| {
        output[..telegram.len()].copy_from_slice(telegram);
        balise::Pair {
            format,
            b: *b,
            esb: *esb,
        }
    }))
}

/// The pair that a lister finds in a list from a start on.
type Find = fn(&List, u64, u64) -> Option<&Pair>;

fn number(pair: &Pair) -> u64 {
    1024 * u64::from(pair.b) + u64::from(pair.esb)
}

/// The first pair at or after the start.
fn right(list: &List, b: u64, esb: u64) -> Option<&Pair> {
    list.pairs
        .iter()
        .find(|pair| number(pair) >= 1024 * b + esb)
}

/// The first pair after the start.
fn strictly_after(list: &List, b: u64, esb: u64) -> Option<&Pair> {
    list.pairs.iter().find(|pair| number(pair) > 1024 * b + esb)
}

/// With each later B the search begins at the esb of the start.
fn esb_not_reset(list: &List, b: u64, esb: u64) -> Option<&Pair> {
    let found = |pair: &&Pair| u64::from(pair.b) >= b && u64::from(pair.esb) >= esb;
    list.pairs.iter().find(found)
}

/// With the B of the start the search begins at esb 0.
fn esb_not_looked_at(list: &List, b: u64, _: u64) -> Option<&Pair> {
    list.pairs.iter().find(|pair| u64::from(pair.b) >= b)
}

/// The last pair of the list is missed.
fn last_missed(list: &List, b: u64, esb: u64) -> Option<&Pair> {
    let last = list.pairs.last().map(number);
    right(list, b, esb).filter(|pair| Some(number(pair)) != last)
}

/// Only the first pair of each B is found.
fn one_of_each_b(list: &List, b: u64, esb: u64) -> Option<&Pair> {
    let found = right(list, b, esb)?;
    let first = list.pairs.iter().find(|pair| pair.b == found.b);
    first.filter(|pair| number(pair) >= 1024 * b + esb)
}

/// The order goes by esb, and then by B.
fn by_esb_first(list: &List, b: u64, esb: u64) -> Option<&Pair> {
    let order = |pair: &&Pair| u64::from(pair.esb) * 4096 + u64::from(pair.b);
    let later = list
        .pairs
        .iter()
        .filter(|pair| order(pair) >= 4096 * esb + b);
    later.min_by_key(order)
}

/// A lister that finds pairs in this way, and refuses as it should.
fn finding(list: &List, find: Find) -> impl Fn(&[u8], u64, u64, &mut [u8]) -> Answer + '_ {
    move |_, b, esb, output| {
        if b > 4095 || esb > 1023 {
            return Err(Refusal::PairTooLarge);
        }
        give(list, find(list, b, esb), output)
    }
}

/// The same, but the start is cut to its lowest bits before it is tested.
fn cut_start(list: &List) -> impl Fn(&[u8], u64, u64, &mut [u8]) -> Answer + '_ {
    move |block, b, esb, output| {
        let (b, esb) = (u64::from(b as u32), u64::from(esb as u32));
        finding(list, right)(block, b, esb, output)
    }
}

/// A start beyond the last pair is taken for the end of the list.
fn too_large_is_no_more(list: &List) -> impl Fn(&[u8], u64, u64, &mut [u8]) -> Answer + '_ {
    move |block, b, esb, output| {
        let answer = finding(list, right)(block, b, esb, output);
        answer.or(Ok(None))
    }
}

/// The output is changed where there are no more.
fn changes_when_no_more(list: &List) -> impl Fn(&[u8], u64, u64, &mut [u8]) -> Answer + '_ {
    move |block, b, esb, output| {
        let answer = finding(list, right)(block, b, esb, output);
        if answer == Ok(None) {
            output[0] ^= 1;
        }
        answer
    }
}

/// The telegram is that of the pair before.
fn telegram_of_another(list: &List) -> impl Fn(&[u8], u64, u64, &mut [u8]) -> Answer + '_ {
    move |block, b, esb, output| {
        let answer = finding(list, right)(block, b, esb, output);
        if let Ok(Some(pair)) = answer {
            let before = list.pairs.iter().rev();
            let start = 1024 * u64::from(pair.b) + u64::from(pair.esb);
            if let Some(other) = before.clone().find(|pair| number(pair) < start) {
                output[..other.telegram.len()].copy_from_slice(&other.telegram);
            }
        }
        answer
    }
}

/// The tail of the output is cleared.
fn tail_cleared(list: &List) -> impl Fn(&[u8], u64, u64, &mut [u8]) -> Answer + '_ {
    move |block, b, esb, output| {
        let answer = finding(list, right)(block, b, esb, output);
        if let Ok(Some(_)) = answer {
            output[list.format.telegram_bits()..].fill(0);
        }
        answer
    }
}

/// Whether the comparison finds something wrong: the whole walk, starts of all kinds,
/// or starts that are too large.
fn found(list: &List, lister: Lister) -> [bool; 3] {
    let random = || Random::new(190);
    let fails = |compare: &dyn Fn(&mut Random)| {
        catch_unwind(AssertUnwindSafe(|| compare(&mut random()))).is_err()
    };
    let starts = list.starts(&mut random(), 100);
    // a comparison that fails would print every byte of an output
    let hook = take_hook();
    set_hook(Box::new(|_| {}));
    let found = [
        fails(&|random| _ = list.compare_whole(random, lister)),
        fails(&|random| list.compare_starts(random, lister, &starts)),
        fails(&|random| _ = list.compare_too_large(random, lister)),
    ];
    set_hook(hook);
    found
}

/// Each wrong one is found in each list, by one of the three at least.
#[test]
fn wrong_listers_are_found() {
    for format in FORMATS {
        let block = Random::new(191).bits(format.user_bits());
        let list = &List::of(block);
        println!(
            "found in a {} list of {} pairs, by the walk, by starts, by starts too large:",
            format.name(),
            list.pairs.len()
        );
        let wrong: [(&str, Lister); 12] = [
            ("strictly after", &finding(list, strictly_after)),
            ("esb not reset", &finding(list, esb_not_reset)),
            ("esb not looked at", &finding(list, esb_not_looked_at)),
            ("the last pair missed", &finding(list, last_missed)),
            ("one of each B", &finding(list, one_of_each_b)),
            ("by esb first", &finding(list, by_esb_first)),
            ("start cut to 32 bits", &cut_start(list)),
            ("too large is no more", &too_large_is_no_more(list)),
            ("output changed", &changes_when_no_more(list)),
            ("telegram of another", &telegram_of_another(list)),
            ("tail cleared", &tail_cleared(list)),
            ("never a pair", &|_, _, _, _| Ok(None)),
        ];
        for (name, lister) in wrong {
            let found = found(list, lister);
            println!("    {name}: {found:?}");
            assert!(found.contains(&true), "{name}");
        }
        assert_eq!(found(list, &finding(list, right)), [false; 3]);
    }
}
