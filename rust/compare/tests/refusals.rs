//! The names and numbers of the refusals: those of include/balise.h, of the
//! balise package and of docs/BENCH.md are what the library answers.

use balise::{Kind, Refusal};
use compare::documents::{header_list, header_refusals, meanings};
use compare::refusals::{provoking, Call};
use second::random::Random;
use std::collections::{BTreeMap, BTreeSet, HashSet};

/// A refusal's name in the header, from that in Rust: `NotBit` is `NOT_BIT`.
fn header_name(refusal: Refusal) -> String {
    let shown = format!("{refusal:?}");
    let mut name = String::new();
    for letter in shown.chars().take_while(char::is_ascii_alphabetic) {
        if letter.is_ascii_uppercase() && !name.is_empty() {
            name.push('_');
        }
        name.push(letter.to_ascii_uppercase());
    }
    name
}

#[test]
fn header_and_wrapper_name_what_the_library_answers() {
    let header = header_refusals();
    let mut answered = BTreeMap::new();
    let mut by_call: BTreeMap<&str, BTreeSet<u8>> = BTreeMap::new();
    for (refusal, call) in provoking(&mut Random::new(95)) {
        assert_eq!(call.refusal(), Some(refusal), "{}", call.name());
        let name = header_name(refusal);
        assert_eq!(header.get(&name), Some(&refusal.number()), "{name}");
        answered.insert(name, refusal.number());
        let numbers = by_call.entry(call.name()).or_default();
        numbers.insert(refusal.number());
    }
    // refusal 4 of the plain engine, which takes seconds, is compared in `engines`
    by_call.entry("encode_plain").or_default().insert(4);
    assert_eq!(by_call["encode_plain"], by_call["encode"]);
    assert_eq!(by_call["search_plain"], by_call["search"]);
    assert_eq!(header, answered);
    for (call, numbers) in by_call {
        let list = header_list(call);
        assert_eq!(BTreeSet::from_iter(list.clone()), numbers, "{call}");
        // where the lowest is not given first, the header says in which order
        let order: Vec<u8> = match call {
            "make" => vec![1, 2, 27, 3, 9],
            "next" => vec![1, 2, 27, 3],
            _ => numbers.into_iter().collect(),
        };
        assert_eq!(list, order, "{call}");
    }
    let named = Refusal::ALL.map(|refusal| (header_name(refusal), refusal.number()));
    assert_eq!(BTreeMap::from(named), answered);
}

/// Refusal 9 comes with each kind from each call that gives it.
#[test]
fn every_kind_of_a_word() {
    let mut kinds: BTreeMap<&str, HashSet<Kind>> = BTreeMap::new();
    for (refusal, call) in provoking(&mut Random::new(97)) {
        if let Refusal::NotWord { kind, .. } = refusal {
            assert_eq!(call.refusal(), Some(refusal), "{}", call.name());
            kinds.entry(call.name()).or_default().insert(kind);
        }
    }
    let calls = ["check", "make", "read", "read_well_formed"];
    let all = calls.map(|call| (call, HashSet::from(Kind::ALL)));
    assert_eq!(kinds, all.into());
}

/// Where read refuses with 10, 11 or 12, the other window call reads.
#[test]
fn read_well_formed_gives_no_refusal_of_a_condition() {
    let mut windows = 0;
    for (refusal, call) in provoking(&mut Random::new(96)) {
        if let (10..=12, Call::Read(window, room)) = (refusal.number(), call) {
            let answer = balise::read_well_formed(&window, &mut vec![0; room]);
            assert!(answer.is_ok(), "{refusal}");
            windows += 1;
        }
    }
    assert!(windows > 0);
    let read = header_list("read");
    assert!(header_list("read_well_formed")
        .iter()
        .all(|number| read.contains(number)));
}

/// The page adds to some what it means in one call.
#[test]
fn wrapper_and_page_use_the_same_words() {
    let meanings = meanings();
    assert_eq!(meanings.len(), Refusal::ALL.len());
    for (refusal, row) in Refusal::ALL.into_iter().zip(meanings) {
        assert_eq!(refusal.number(), row.number);
        let rest = row.means.strip_prefix(refusal.words());
        let rest = rest.unwrap_or_else(|| panic!("{refusal}"));
        assert!(rest.is_empty() || rest.starts_with("; "), "{refusal}");
    }
}
