//! The table: entries, look-ups and barred words.

use second::words::{self, Kind};
use std::collections::BTreeMap;

#[test]
fn entries() {
    for (i, &entry) in words::table().iter().enumerate() {
        assert_eq!(layers::word(i as u16), entry);
        assert_eq!(usize::from(layers::look_up(entry)), i);
    }
    assert_eq!(words::table().len(), words::ENTRIES);
}

/// What the layer's lookup answers for a word: its number, or 1024 and the number
/// of its kind (document 02, No. 13).
fn answer(word: u16) -> u16 {
    match words::look_up(word) {
        Ok(number) => number,
        Err(Kind::Group250) => 1024 + 250,
        Err(Kind::Group20) => 1024 + 20,
        Err(Kind::Other) => 1024,
    }
}

/// All words, and every number of more than eleven bits.
#[test]
fn look_ups() {
    let mut kinds: BTreeMap<u16, usize> = BTreeMap::new();
    for word in 0..=u16::MAX {
        let ours = layers::look_up(word);
        assert_eq!(ours, answer(word), "{word:011b}");
        assert_eq!(layers::in_group_250(word), ours == 1274, "{word:011b}");
        assert_eq!(layers::in_group_20(word), ours == 1044, "{word:011b}");
        if word < 2048 {
            *kinds.entry(ours.max(1023)).or_default() += 1;
        }
    }
    println!("look-ups of the 2,048 words, 1023 standing for any number: {kinds:?}");
    let counts = [(1023, 1024), (1024, 754), (1044, 20), (1274, 250)];
    assert_eq!(kinds, counts.into());
}

/// A number of more than eleven bits is no word, and in no group.
#[test]
fn groups() {
    for word in 0..=u16::MAX {
        let eleven_bits = word < 1 << words::WORD_BITS;
        assert_eq!(
            layers::in_group_250(word),
            eleven_bits && words::in_group_250(word)
        );
        assert_eq!(
            layers::in_group_20(word),
            eleven_bits && words::in_group_20(word)
        );
    }
}
